; The C entries over the functions of crates/host, which take a slice by its address and leave a struct at one: bench/large appends them.

define i64 @bruskelde_slots_size() #0 {
  %answer = call i64 @"host::slot::bruskelde_slots_size"()
  ret i64 %answer
}

define void @bruskelde_start(ptr %slots) #0 {
  call void @"host::slot::bruskelde_start"(ptr %slots)
  ret void
}

define i32 @bruskelde_open(ptr %slots, i64 %slot) #0 {
  %answer = call i32 @"host::slot::bruskelde_open"(ptr %slots, i64 %slot)
  ret i32 %answer
}

define i32 @bruskelde_close(ptr %slots, i64 %slot) #0 {
  %answer = call i32 @"host::slot::bruskelde_close"(ptr %slots, i64 %slot)
  ret i32 %answer
}

define i32 @bruskelde_sequence(ptr %slots, i64 %slot) #0 {
  %answer = call i32 @"host::slot::bruskelde_sequence"(ptr %slots, i64 %slot)
  ret i32 %answer
}

define i32 @bruskelde_picture(ptr %slots, i64 %slot, ptr %shown) #0 {
  %answer = call i32 @"host::slot::bruskelde_picture"(ptr %slots, i64 %slot, ptr %shown)
  ret i32 %answer
}

define i64 @bruskelde_feed(ptr %slots, i64 %slot, i64 %kind, i64 %size, ptr %bytes, i64 %length) #0 {
  %lent = alloca {ptr, i64}
  %lent.length = getelementptr i8, ptr %lent, i64 8
  store ptr %bytes, ptr %lent
  store i64 %length, ptr %lent.length
  %at = alloca i64
  call void @"host::slot::bruskelde_feed"(ptr %at, ptr %slots, i64 %slot, i64 %kind, i64 %size, ptr %lent)
  %answer = load i64, ptr %at
  ret i64 %answer
}

define i64 @bruskelde_table(ptr %slots, i64 %slot, ptr %rows, i64 %length) #0 {
  %lent = alloca {ptr, i64}
  %lent.length = getelementptr i8, ptr %lent, i64 8
  store ptr %rows, ptr %lent
  store i64 %length, ptr %lent.length
  %at = alloca i64
  call void @"host::slot::bruskelde_table"(ptr %at, ptr %slots, i64 %slot, ptr %lent)
  %answer = load i64, ptr %at
  ret i64 %answer
}

define i32 @bruskelde_read(i64 %kind, i64 %size, ptr %bytes, i64 %length) #0 {
  %lent = alloca {ptr, i64}
  %lent.length = getelementptr i8, ptr %lent, i64 8
  store ptr %bytes, ptr %lent
  store i64 %length, ptr %lent.length
  %answer = call i32 @"host::bruskelde_read"(i64 %kind, i64 %size, ptr %lent)
  ret i32 %answer
}

define i32 @bruskelde_fields(i64 %kind, i64 %size, ptr %bytes, i64 %length, ptr %row, i64 %row.length) #0 {
  %lent = alloca {ptr, i64}
  %lent.length = getelementptr i8, ptr %lent, i64 8
  store ptr %bytes, ptr %lent
  store i64 %length, ptr %lent.length
  %lent.row = alloca {ptr, i64}
  %lent.row.length = getelementptr i8, ptr %lent.row, i64 8
  store ptr %row, ptr %lent.row
  store i64 %row.length, ptr %lent.row.length
  %answer = call i32 @"host::bruskelde_fields"(i64 %kind, i64 %size, ptr %lent, ptr %lent.row)
  ret i32 %answer
}

define {i64, i64} @bruskelde_part(i64 %kind, i64 %size, ptr %bytes, i64 %length) #0 {
  %lent = alloca {ptr, i64}
  %lent.length = getelementptr i8, ptr %lent, i64 8
  store ptr %bytes, ptr %lent
  store i64 %length, ptr %lent.length
  %at = alloca {i64, i64}
  call void @"host::bruskelde_part"(ptr %at, i64 %kind, i64 %size, ptr %lent)
  %answer = load {i64, i64}, ptr %at
  ret {i64, i64} %answer
}
