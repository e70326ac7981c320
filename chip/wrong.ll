; LLVM code in which a chip of 32 bits would go astray, for chip/pointer-places: it must name each function wrong_.. and no other.
; The forms are those of Rattle's compiler.

define internal i64 @"wrong_number_of_a_pointer"(ptr noundef %a0) #0 {
start:
  %v0 = ptrtoint ptr %a0 to i64
  ret i64 %v0
}

define internal i64 @"wrong_number_of_an_address"(ptr noundef %a0, i64 noundef %a1) #0 {
start:
  %v0 = ptrtoaddr ptr %a0 to i64
  %v1 = sub i64 %v0, %a1
  ret i64 %v1
}

define internal i64 @"wrong_read_as_a_number"(ptr noundef %a0) #0 {
start:
  %r0 = alloca [16 x i8], align 8
  store ptr %a0, ptr %r0, align 8
  %v0 = load i64, ptr %r0, align 8
  ret i64 %v0
}

; The upper half of a pointer's place: the chip never writes it.
define internal i32 @"wrong_upper_half"(ptr noundef %a0) #0 {
start:
  %r0 = alloca [16 x i8], align 8
  store ptr %a0, ptr %r0, align 8
  %v0 = getelementptr i8, ptr %r0, i64 4
  %v1 = load i32, ptr %v0, align 4
  ret i32 %v1
}

define internal i64 @"wrong_after_a_copy"(ptr noundef %a0) #0 {
start:
  %r0 = alloca [16 x i8], align 8
  %r1 = alloca [24 x i8], align 8
  %v0 = getelementptr i8, ptr %r0, i64 8
  store ptr %a0, ptr %v0, align 8
  %v1 = getelementptr i8, ptr %r1, i64 8
  call void @llvm.memmove.p0.p0.i64(ptr %v1, ptr %r0, i64 16, i1 false)
  %v2 = getelementptr i8, ptr %r1, i64 16
  %v3 = load i64, ptr %v2, align 8
  ret i64 %v3
}

; What the called function keeps as a pointer is read here as a number.
define internal i64 @"wrong_after_a_call"(ptr noundef %a0) #0 {
start:
  %r0 = alloca [16 x i8], align 8
  call void @"wrong_keep"(ptr %r0, ptr %a0)
  %v0 = load i64, ptr %r0, align 8
  ret i64 %v0
}

; The record is reached by a pointer that was kept.
define internal i64 @"wrong_behind_a_pointer"(ptr noundef %a0) #0 {
start:
  %r0 = alloca [16 x i8], align 8
  %r1 = alloca ptr, align 8
  store ptr %a0, ptr %r0, align 8
  store ptr %r0, ptr %r1, align 8
  %v0 = load ptr, ptr %r1, align 8
  %v1 = load i64, ptr %v0, align 8
  ret i64 %v1
}

; Half of a pointer's place is copied.
define internal void @"wrong_half_a_copy"(ptr noundef %a0) #0 {
start:
  %r0 = alloca [16 x i8], align 8
  %r1 = alloca [16 x i8], align 8
  store ptr %a0, ptr %r0, align 8
  call void @llvm.memmove.p0.p0.i64(ptr %r1, ptr %r0, i64 4, i1 false)
  ret void
}

; A lone pointer has 4 bytes on the chip: the copy goes past it.
define internal void @"wrong_past_a_pointer"(ptr noundef %a0) #0 {
start:
  %r0 = alloca ptr, align 8
  %r1 = alloca [8 x i8], align 8
  store ptr %a0, ptr %r0, align 8
  call void @llvm.memmove.p0.p0.i64(ptr %r1, ptr %r0, i64 8, i1 false)
  ret void
}

; A part of a pointer's place is set to 0.
define internal void @"wrong_cleared_in_part"(ptr noundef %a0) #0 {
start:
  %r0 = alloca [16 x i8], align 8
  store ptr %a0, ptr %r0, align 8
  %v0 = getelementptr i8, ptr %r0, i64 4
  call void @llvm.memset.p0.i64(ptr %v0, i8 0, i64 12, i1 false)
  ret void
}

; A pointer that was made of bytes which are not 0.
define internal void @"wrong_filled"(ptr noundef %a0) #0 {
start:
  %r0 = alloca [16 x i8], align 8
  call void @llvm.memset.p0.i64(ptr %r0, i8 1, i64 16, i1 false)
  %v0 = load ptr, ptr %r0, align 8
  ret void
}

; The number beside a pointer has another place on the chip.
define internal { ptr, i32 } @"wrong_places_of_a_record"(ptr noundef %a0) #0 {
start:
  %r0 = alloca [16 x i8], align 8
  store ptr %a0, ptr %r0, align 8
  %v0 = getelementptr i8, ptr %r0, i64 8
  store i32 1, ptr %v0, align 8
  %v1 = load { ptr, i32 }, ptr %r0, align 8
  ret { ptr, i32 } %v1
}

; The record is reached by a pointer that came back, and holds a pointer where a number is read.
define internal i64 @"wrong_behind_an_answer"(ptr noundef %a0, ptr noundef %a1) #0 {
start:
  store ptr %a1, ptr %a0, align 8
  %v0 = call { ptr, i64 } @"wrong_handed_back"(ptr %a0)
  %v1 = extractvalue { ptr, i64 } %v0, 0
  %v2 = load i64, ptr %v1, align 8
  ret i64 %v2
}

define internal { ptr, i64 } @"wrong_handed_back"(ptr noundef %a0) #0 {
start:
  %r0 = alloca [16 x i8], align 8
  store ptr %a0, ptr %r0, align 8
  %v0 = load { ptr, i64 }, ptr %r0, align 8
  ret { ptr, i64 } %v0
}

define internal void @"wrong_keep"(ptr noundef %a0, ptr noundef %a1) #0 {
start:
  store ptr %a1, ptr %a0, align 8
  ret void
}

; A slice: a pointer and a length beside it.
define internal i64 @"right"(ptr noundef %a0, i64 noundef %a1) #0 {
start:
  %r0 = alloca [16 x i8], align 8
  store ptr %a0, ptr %r0, align 8
  %v0 = getelementptr i8, ptr %r0, i64 8
  store i64 %a1, ptr %v0, align 8
  %v1 = load ptr, ptr %r0, align 8
  %v2 = getelementptr inbounds nuw i8, ptr %v1, i64 %a1
  %v3 = load i8, ptr %v2, align 1
  %v4 = load i64, ptr %v0, align 8
  ret i64 %v4
}

; A slice that comes back in one value, out of a place that was set to 0 before.
define internal { ptr, i64 } @"right_answer"(ptr noundef %a0, i64 noundef %a1) #0 {
start:
  %r0 = alloca [16 x i8], align 8
  call void @llvm.memset.p0.i64(ptr %r0, i8 0, i64 16, i1 false)
  %v0 = icmp eq ptr %a0, null
  store ptr %a0, ptr %r0, align 8
  %v1 = getelementptr i8, ptr %r0, i64 8
  store i64 %a1, ptr %v1, align 8
  %v2 = load { ptr, i64 }, ptr %r0, align 8
  ret { ptr, i64 } %v2
}

define internal i8 @"right_call"(ptr noundef %a0, i64 noundef %a1) #0 {
start:
  %v0 = call { ptr, i64 } @"right_answer"(ptr %a0, i64 %a1)
  %v1 = extractvalue { ptr, i64 } %v0, 0
  %v2 = extractvalue { ptr, i64 } %v0, 1
  %v3 = getelementptr inbounds nuw i8, ptr %v1, i64 %v2
  %v4 = load i8, ptr %v3, align 1
  ret i8 %v4
}

define internal i1 @"right_distance"(ptr noundef %a0, ptr noundef %a1, i64 noundef %a2) #0 {
start:
  %v0 = ptrtoaddr ptr %a0 to i64
  %v1 = ptrtoaddr ptr %a1 to i64
  %v2 = sub i64 %v0, %v1
  %v3 = icmp ult i64 %v2, %a2
  ret i1 %v3
}
