; A module as the toolchain makes it of a program, as small as can be, for tools/tests/test_targets: it takes memory, asks for the length of its first
; word, loads and stores a pair, and writes a line. Its status is that length and 1 more where there was memory.
source_filename = "rattle"
target datalayout = "e-m:e-p270:32:32-p271:32:32-p272:64:64-i64:64-i128:128-f80:128-n8:16:32:64-S128"
target triple = "x86_64-unknown-linux-gnu"

@static.0 = private unnamed_addr constant [6 x i8] c"small\0A", align 1
@static.1 = private unnamed_addr constant <{ ptr, [8 x i8] }> <{ ptr @static.0, [8 x i8] c"\06\00\00\00\00\00\00\00" }>, align 8

declare { i64, i64 } @rattle_alloc(i64 noundef, i64 noundef) #1
declare void @rattle_dealloc(ptr noundef) #1
declare noundef i64 @rattle_arg(i64 noundef, ptr noundef, i64 noundef) #1
declare noundef i64 @write(i32 noundef, ptr noundef, i64 noundef) #1

define internal void @told(ptr %text) #0 {
start:
  %pair = load { ptr, i64 }, ptr %text, align 8
  %copy = alloca [16 x i8], align 8
  store { ptr, i64 } %pair, ptr %copy, align 8
  %place = getelementptr i8, ptr %copy, i64 8
  %length = load i64, ptr %place, align 8
  %bytes = load ptr, ptr %copy, align 8
  %written = call i64 @write(i32 1, ptr %bytes, i64 %length)
  ret void
}

define i32 @main() #0 {
start:
  %buffer = alloca [8 x i8], align 1
  %memory = call { i64, i64 } @rattle_alloc(i64 100, i64 8)
  %given = extractvalue { i64, i64 } %memory, 0
  %length = call i64 @rattle_arg(i64 1, ptr %buffer, i64 8)
  call void @told(ptr @static.1)
  %sum = add i64 %length, %given
  %status = trunc i64 %sum to i32
  ret i32 %status
}

attributes #0 = { nounwind "probe-stack"="inline-asm" "stack-probe-size"="3072" "target-cpu"="x86-64-v2" }
attributes #1 = { nobuiltin nounwind }
