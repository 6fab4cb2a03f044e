; A function that calls itself keeps what it was given from outside, unless it hands itself less.

define internal void @keeps(ptr noundef align 8 %a0, i64 noundef %a1) {
  %next = getelementptr i8, ptr %a0, i64 8
  call void @keeps(ptr %next, i64 %a1)
  ret void
}

define internal void @lowers(ptr noundef align 4 %a0) {
  %next = getelementptr i8, ptr %a0, i64 4
  call void @lowers(ptr %next)
  ret void
}

define internal void @walks(ptr noundef %a0, ptr noundef align 8 %a1) {
  %next = getelementptr i8, ptr %a0, i64 1
  call void @walks(ptr %next, ptr %a1)
  ret void
}

; the second becomes the first: two rounds are needed
define internal void @turns(ptr noundef align 2 %a0, ptr noundef align 2 %a1, ptr noundef align 2 %a2) {
  call void @turns(ptr %a1, ptr %a2, ptr %a0)
  ret void
}

; each calls the other: what one loses the other has lost too
define internal void @there(ptr noundef align 4 %a0) {
  call void @back(ptr %a0)
  ret void
}

define internal void @back(ptr noundef align 4 %a0) {
  %next = getelementptr i8, ptr %a0, i64 12
  call void @there(ptr %next)
  ret void
}

define internal void @there_and_kept(ptr noundef align 8 %a0) {
  call void @back_and_kept(ptr %a0)
  ret void
}

define internal void @back_and_kept(ptr noundef align 8 %a0) {
  call void @there_and_kept(ptr %a0)
  ret void
}

define void @outside() {
  %w = alloca [8 x i8], align 8
  %h = alloca [2 x i8], align 2
  call void @keeps(ptr %w, i64 3)
  call void @lowers(ptr %w)
  call void @walks(ptr %w, ptr %w)
  call void @turns(ptr %w, ptr %w, ptr %h)
  call void @there(ptr %w)
  call void @there_and_kept(ptr %w)
  ret void
}
