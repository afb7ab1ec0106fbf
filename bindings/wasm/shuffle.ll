; What the instruction pshufb does, for machines that have none: each byte is the one at the place that the mask has for
; it, and 0 where the top bit of the mask is set.
define internal <16 x i8> @gob_shuffled(<16 x i8> %bytes, <16 x i8> %mask) {
entry:
  %from = alloca <16 x i8>, align 16
  %places = alloca <16 x i8>, align 16
  %to = alloca <16 x i8>, align 16
  store <16 x i8> %bytes, ptr %from, align 16
  store <16 x i8> %mask, ptr %places, align 16
  br label %each
each:
  %at = phi i64 [ 0, %entry ], [ %next, %each ]
  %place_at = getelementptr i8, ptr %places, i64 %at
  %place = load i8, ptr %place_at, align 1
  %low = and i8 %place, 15
  %offset = zext i8 %low to i64
  %byte_at = getelementptr i8, ptr %from, i64 %offset
  %byte = load i8, ptr %byte_at, align 1
  %none = icmp slt i8 %place, 0
  %moved = select i1 %none, i8 0, i8 %byte
  %to_at = getelementptr i8, ptr %to, i64 %at
  store i8 %moved, ptr %to_at, align 1
  %next = add i64 %at, 1
  %more = icmp ult i64 %next, 16
  br i1 %more, label %each, label %done
done:
  %shuffled = load <16 x i8>, ptr %to, align 16
  ret <16 x i8> %shuffled
}
