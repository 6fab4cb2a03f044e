; A call of another form is not looked into: what it calls has 1. So has a parameter of another form, and it is left as it is.

define internal void @called_at_the_end(ptr noundef %a0) {
  ret void
}

define internal void @must_end(ptr noundef %a0) {
  ret void
}

define internal void @never_at_the_end(ptr noundef %a0) {
  ret void
}

define internal void @invoked(ptr noundef %a0) {
  ret void
}

define internal void @any_number(ptr noundef %a0, ...) {
  ret void
}

define internal void @fewer(ptr noundef %a0, ptr noundef %a1) {
  ret void
}

define internal i64 @in_a_range(ptr noundef %a0) {
  ret i64 0
}

define internal void @bundled(ptr noundef %a0) {
  ret void
}

define internal void @marked(ptr noundef %a0) {
  ret void
}

; an argument may have another form: only that is unknown
define internal void @argument(ptr noundef %a0, ptr noundef align 8 %a1) {
  ret void
}

; a copy of what is handed over, which the callee's own words place
define internal void @copied(ptr noundef byval([8 x i8]) %a0, ptr noundef align 8 %a1) {
  ret void
}

define internal void @apart(ptr noalias noundef %a0, ptr noundef align 8 %a1) {
  call void @below(ptr %a0, ptr %a1)
  ret void
}

define internal void @below(ptr noundef %a0, ptr noundef align 8 %a1) {
  ret void
}

; names with signs in them, and parameters whose types have commas
define internal void @"a::b<c, d>(e)"(<2 x i64> %a0, { i64, [2 x i32] } %a1, ptr noundef align 8 %"a, 2") {
  ret void
}

define private fastcc void @private(ptr align 8 %a0) {
  ret void
}

declare i32 @personality(...)

define void @outside({ i64, [2 x i32] } %pair, <2 x i64> %two) personality ptr @personality {
start:
  %w = alloca [8 x i8], align 8
  tail call void @called_at_the_end(ptr %w)
  notail call void @never_at_the_end(ptr %w)
  call void (ptr, ...) @any_number(ptr %w, ptr %w)
  call void @fewer(ptr %w)
  %number = call range(i64 0, 4) i64 @in_a_range(ptr %w)
  call void @bundled(ptr %w) [ "deopt"(i64 0) ]
  call void @marked(ptr %w), !kept !0
  call void @argument(ptr nonnull %w, ptr noundef %w)
  call void @copied(ptr byval([8 x i8]) %w, ptr %w)
  call void @apart(ptr %w, ptr %w)
  call void @"a::b<c, d>(e)"(<2 x i64> %two, { i64, [2 x i32] } %pair, ptr %w)
  call fastcc void @private(ptr %w)
  invoke void @invoked(ptr %w)
          to label %end unwind label %broken

broken:                                           ; preds = %start
  %reason = landingpad { ptr, i32 }
          cleanup
  ret void

end:                                              ; preds = %start
  ret void
}

define void @ends(ptr noundef %a0) {
  musttail call void @must_end(ptr %a0)
  ret void
}

!0 = !{}
