; What a caller in C calls has what psci.h asks of it: words at multiples of eight, bytes anywhere. Of what the header lacks nothing is known.

define { i64, i64 } @psci_decode(ptr noundef align 8 %a0, ptr noundef align 8 %a1) {
  %r0 = alloca [16 x i8], align 8
  call void @decode(ptr %r0, ptr %a0, ptr %a1)
  %r1 = load { i64, i64 }, ptr %r0, align 8
  ret { i64, i64 } %r1
}

define internal void @decode(ptr noundef align 8 %a0, ptr noundef align 8 %a1, ptr noundef align 8 %a2) {
  ret void
}

define { i64, i64 } @psci_line(i64 noundef %a0, ptr noundef align 8 %a1, ptr noundef %a2) {
  %r0 = alloca [16 x i8], align 8
  call void @line(ptr %r0, i64 %a0, ptr %a1, ptr %a2)
  %r1 = load { i64, i64 }, ptr %r0, align 8
  ret { i64, i64 } %r1
}

define internal void @line(ptr noundef align 8 %a0, i64 noundef %a1, ptr noundef align 8 %a2, ptr noundef %a3) {
  ret void
}

; declared over two lines
define { i64, i64 } @psci_encode_with_leftovers(ptr noundef align 8 %a0, ptr noundef align 8 %a1, ptr noundef align 8 %a2) {
  ret { i64, i64 } zeroinitializer
}

; not in the header
define { i64, i64 } @psci_unknown(ptr noundef %a0, i64 noundef %a1) {
  %r0 = alloca [16 x i8], align 8
  call void @unknown(ptr %r0, ptr %a0)
  %r1 = load { i64, i64 }, ptr %r0, align 8
  ret { i64, i64 } %r1
}

define internal void @unknown(ptr noundef align 8 %a0, ptr noundef %a1) {
  ret void
}

; its name is the header's, and it is another
define internal void @psci_encode(ptr noundef align 2 %a0) {
  ret void
}

define hidden void @hidden(ptr noundef %a0) {
  ret void
}

define linkonce_odr void @may_be_elsewhere(ptr noundef %a0) {
  ret void
}

; called from here too, with less than the header asks of the first
define { i64, i64 } @psci_recode(ptr noundef align 4 %a0, ptr noundef align 8 %a1) {
  ret { i64, i64 } zeroinitializer
}

; and named as a value
define { i64, i64 } @psci_recode_smccc(ptr noundef %a0, ptr noundef %a1) {
  %slot = alloca ptr, align 8
  %half = alloca i16, align 2
  %w = alloca [16 x i8], align 8
  %place = getelementptr i8, ptr %w, i64 4
  store ptr @psci_recode_smccc, ptr %slot, align 8
  call void @psci_encode(ptr %half)
  call void @hidden(ptr %w)
  call void @may_be_elsewhere(ptr %w)
  %r = call { i64, i64 } @psci_recode(ptr %place, ptr %w)
  ret { i64, i64 } %r
}
