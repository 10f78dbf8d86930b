; A module that cross/guard takes. cross/test breaks one condition after the other in it.
source_filename = "rattle"
target datalayout = "e-m:e-p270:32:32-p271:32:32-p272:64:64-i64:64-i128:128-f80:128-n8:16:32:64-S128"
target triple = "x86_64-unknown-linux-gnu"

@static.0 = private unnamed_addr constant [2 x i8] zeroinitializer, align 1

define noundef i64 @varnucht_sound(ptr noundef %a0, i64 noundef %a1) #0 {
start:
  %r0 = alloca [16 x i8], align 8
  %r5 = icmp eq ptr %a0, null
  %r6 = zext i1 %r5 to i64
  %r7 = mul i64 %r6, 4096
  %r8 = getelementptr i8, ptr %a0, i64 %r7
  store ptr %r8, ptr %r0, align 8
  %r1 = getelementptr i8, ptr %r0, i64 8
  store i64 %a1, ptr %r1, align 8
  %r2 = load ptr, ptr %r0, align 8
  %r3 = icmp ult i64 %a1, 9
  br i1 %r3, label %then, label %else

then:                                             ; preds = %start
  %r4 = call noundef i64 @"inner"(ptr %r2, i64 %a1)
  ret i64 %r4

else:                                             ; preds = %start
  ret i64 %a1
}

define internal noundef i64 @inner(ptr noundef %a0, i64 noundef %a1) #0 {
start:
  %r0 = call i64 @llvm.ctpop.i64(i64 %a1)
  %both = call { ptr, i64 } @pair()
  %length = extractvalue { ptr, i64 } %both, 1
  ret i64 %r0
}

define internal noundef { ptr, i64 } @pair() #0 {
start:
  %first = alloca [16 x i8], align 8
  store ptr @static.0, ptr %first, align 8
  %second = getelementptr i8, ptr %first, i64 8
  store i64 2, ptr %second, align 8
  %both = load { ptr, i64 }, ptr %first, align 8
  ret { ptr, i64 } %both
}

define internal noundef i64 @"generic::<i64>"(i64 noundef %a0) #0 {
start:
  ret i64 %a0
}

declare i64 @llvm.ctpop.i64(i64)

attributes #0 = { nounwind "probe-stack"="inline-asm" "stack-probe-size"="3072" "target-cpu"="x86-64" }
