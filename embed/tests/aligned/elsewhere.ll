; A function that is named elsewhere than in its head and in a plain call can be called from there too, with anything.

@table = internal constant [1 x ptr] [ptr @in_a_table], align 8
@other_name = internal alias void (ptr), ptr @by_another_name

define internal void @in_a_table(ptr noundef %a0) {
  ret void
}

define internal void @by_another_name(ptr noundef %a0) {
  ret void
}

define internal void @stored(ptr noundef %a0) {
  ret void
}

define internal void @handed_over(ptr noundef %a0) {
  ret void
}

define internal void @handed_to_itself(ptr noundef %a0) {
  ret void
}

define internal void @compared(ptr noundef %a0) {
  ret void
}

define internal void @in_a_head(ptr noundef %a0) {
  ret void
}

define internal void @"named, (too)"(ptr noundef %a0) {
  ret void
}

; its name may stand in quotation marks
define internal void @quoted(ptr noundef %a0) {
  ret void
}

; named in a comment, @not_named, and in a string
define internal void @not_named(ptr noundef align 8 %a0) {
  ret void
}

; another name begins in the same way
define internal void @stored.not(ptr noundef align 8 %a0) {
  ret void
}

define internal void @"stored::not"(ptr noundef align 8 %a0) {
  ret void
}

define internal void @takes(ptr noundef %a0, ptr noundef align 8 %a1) {
  ret void
}

define void @outside(ptr noundef %a0) personality ptr @in_a_head {
  %w = alloca [8 x i8], align 8
  %slot = alloca ptr, align 8
  call void @in_a_table(ptr %w)
  call void @by_another_name(ptr %w)
  call void @stored(ptr %w)
  store ptr @stored, ptr %slot, align 8
  call void @handed_over(ptr %w)
  call void @takes(ptr @handed_over, ptr %w)
  call void @handed_to_itself(ptr @handed_to_itself)
  call void @compared(ptr %w)
  %same = icmp eq ptr %a0, @compared
  call void @in_a_head(ptr %w)
  call void @"named, (too)"(ptr %w)
  store ptr @"named, (too)", ptr %slot, align 8
  call void @quoted(ptr %w)
  store ptr @"quoted", ptr %slot, align 8
  call void @not_named(ptr %w) ; not as a value: store ptr @not_named
  call void @stored.not(ptr %w)
  call void @"stored::not"(ptr %w)
  ret void
}

!kept = !{!0}
!0 = !{!"store ptr @not_named, ptr %slot"}
