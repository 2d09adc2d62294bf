; A small module in the forms that chip-pairs.py and chip-layout.py know: a slice is made, copied and read.
source_filename = "layout"
target datalayout = "e-m:e-p270:32:32-p271:32:32-p272:64:64-i64:64-i128:128-f80:128-n8:16:32:64-S128"
target triple = "x86_64-unknown-linux-gnu"

@static.0 = private unnamed_addr constant [2 x i8] c"\03\FF", align 1

define internal { ptr, i64 } @"slice::rest"(ptr noundef %at, i64 noundef %length) #0 {
start:
  %slice = alloca [16 x i8], align 8
  %next = getelementptr inbounds nuw i8, ptr %at, i64 1
  store ptr %next, ptr %slice, align 8
  %length_at = getelementptr i8, ptr %slice, i64 8
  store i64 %length, ptr %length_at, align 8
  %rest = load { ptr, i64 }, ptr %slice, align 8
  ret { ptr, i64 } %rest
}

define internal void @"slice::first"(ptr noundef %to, ptr noundef %slice) #0 {
start:
  %at = load ptr, ptr %slice, align 8
  %length_at = getelementptr inbounds i8, ptr %slice, i64 8
  %length = load i64, ptr %length_at, align 8
  %some = icmp ult i64 0, %length
  br i1 %some, label %there, label %none

there:
  %byte = load i8, ptr %at, align 1
  store i8 %byte, ptr %to, align 1
  ret void

none:
  call void @llvm.trap()
  unreachable
}

define internal { i8, ptr } @"slice::next"(ptr noundef %at) #0 {
start:
  %next = alloca [16 x i8], align 8
  store i8 1, ptr %next, align 8
  %there = getelementptr inbounds i8, ptr %next, i64 8
  store ptr %at, ptr %there, align 8
  %one = load { i8, ptr }, ptr %next, align 8
  %again = alloca [16 x i8], align 8
  store { i8, ptr } %one, ptr %again, align 8
  ret { i8, ptr } %one
}

define internal void @"slice::move"(ptr noundef %to, ptr noundef %from, i64 noundef %count) #0 {
start:
  %here = ptrtoaddr ptr %to to i64
  %there = ptrtoaddr ptr %from to i64
  %apart = sub i64 %here, %there
  %inside = icmp ult i64 %apart, %count
  br i1 %inside, label %never, label %copy

copy:
  call void @llvm.memmove.p0.p0.i64(ptr %to, ptr %from, i64 %count, i1 false)
  ret void

never:
  call void @llvm.trap()
  unreachable
}

define noundef i64 @rikkovan_first(ptr noundef %plan, i64 noundef %plan_len) #0 {
start:
  %slice = alloca [16 x i8], align 8
  %copy = alloca [16 x i8], align 8
  %kept = alloca ptr, align 8
  %result = alloca i8, align 1
  %is_null = icmp eq ptr %plan, null
  %null = zext i1 %is_null to i64
  %step = mul i64 %null, 4096
  %place = getelementptr i8, ptr %plan, i64 %step
  call void @llvm.memset.p0.i64(ptr %slice, i8 0, i64 16, i1 false)
  store ptr %place, ptr %slice, align 8
  %length = getelementptr inbounds i8, ptr %slice, i64 8
  store i64 %plan_len, ptr %length, align 8
  call void @llvm.memmove.p0.p0.i64(ptr %copy, ptr %slice, i64 16, i1 false)
  store ptr %plan, ptr %kept, align 8
  call void @"slice::first"(ptr %result, ptr %copy)
  %rest = call { ptr, i64 } @"slice::rest"(ptr %place, i64 %plan_len)
  %rest_at = extractvalue { ptr, i64 } %rest, 0
  %second = load i8, ptr %rest_at, align 1
  call void @"slice::move"(ptr %result, ptr %place, i64 %null)
  %one = call { i8, ptr } @"slice::next"(ptr %place)
  %one_at = extractvalue { i8, ptr } %one, 1
  %third = load i8, ptr %one_at, align 1
  %most_at = getelementptr i8, ptr @static.0, i64 1
  %most = load i8, ptr %most_at, align 1
  %less = icmp ult i8 %second, %most
  %byte = load i8, ptr %result, align 1
  %word = zext i8 %byte to i64
  ret i64 %word
}

declare void @llvm.memmove.p0.p0.i64(ptr, ptr, i64, i1) #1
declare void @llvm.memset.p0.i64(ptr, i8, i64, i1) #1
declare void @llvm.trap() #2

attributes #0 = { nounwind "probe-stack"="inline-asm" "stack-probe-size"="3072" "target-cpu"="x86-64" }
