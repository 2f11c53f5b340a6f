; The instruction `pshufb` of x86-64 for a machine that lacks it (Intel 64, volume 2B, PSHUFB): each byte that is asked for is the
; one at the place in the low four bits of its mask, or 0 if the mask has its highest bit.
define internal <16 x i8> @a429_shuffle(<16 x i8> %bytes, <16 x i8> %masks) {
first:
  br label %next
next:
  %at = phi i32 [ 0, %first ], [ %after, %next ]
  %before = phi <16 x i8> [ zeroinitializer, %first ], [ %shuffled, %next ]
  %mask = extractelement <16 x i8> %masks, i32 %at
  %place = and i8 %mask, 15
  %byte = extractelement <16 x i8> %bytes, i8 %place
  %is.none = icmp slt i8 %mask, 0
  %taken = select i1 %is.none, i8 0, i8 %byte
  %shuffled = insertelement <16 x i8> %before, i8 %taken, i32 %at
  %after = add i32 %at, 1
  %is.last = icmp eq i32 %after, 16
  br i1 %is.last, label %done, label %next
done:
  ret <16 x i8> %shuffled
}
