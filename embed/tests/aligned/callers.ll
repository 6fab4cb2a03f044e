; The least over all calls counts, wherever the callers stand.

; one caller hands over a word, the other four bytes into a word
define internal void @two_callers(ptr noundef align 4 %a0) #0 {
  ret void
}

; all callers hand over words
define internal void @same(ptr noundef align 8 %a0, i64 noundef %a1, ptr noundef align 8 %a2) #0 {
  ret void
}

; the second is a byte at one call, the third a half at another
define internal void @each_its_own(ptr noundef align 8 %a0, ptr noundef %a1, ptr noundef align 2 %a2) #0 {
  ret void
}

; what comes in by a pointer is handed on
define internal void @below(ptr noundef align 4 %a0) #0 {
  ret void
}

define internal void @hands_on(ptr noundef align 4 %a0) #0 {
  call void @below(ptr %a0)
  ret void
}

; nobody calls it: what it would be given can't be wrong
define internal void @unused(ptr noundef align 8 %a0) #0 {
  ret void
}

define internal i64 @first() #0 {
start:
  %word = alloca i64, align 8
  %half = alloca i16, align 2
  %quad = alloca [4 x i8], align 4
  call void @two_callers(ptr %word)
  call void @same(ptr %word, i64 7, ptr noundef %word)
  call void @each_its_own(ptr %word, ptr %word, ptr %half) #0
  call void @hands_on(ptr %quad)
  ret i64 0
}

define internal { i64, i64 } @second({ i64, i64 } %a0) #0 {
start:
  %words = alloca [16 x i8], align 16
  %byte = alloca i8, align 1
  %place = getelementptr i8, ptr %words, i64 4
  call void @two_callers(ptr %place)
  call void @same(ptr %words, i64 0, ptr %words)
  call void @each_its_own(ptr %words, ptr %byte, ptr %words)
  call void @hands_on(ptr %words)
  %given = call i64 @first()
  %pair = call { i64, i64 } @second({ i64, i64 } %a0)
  ret { i64, i64 } %pair
}

attributes #0 = { nounwind }
