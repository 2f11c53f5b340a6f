
; Shuffles the 16 bytes at an address by the masks at another.
define void @shuffle(ptr %to, ptr %bytes, ptr %masks) {
  %from = load <16 x i8>, ptr %bytes, align 1
  %by = load <16 x i8>, ptr %masks, align 1
  %made = call <16 x i8> @a429_shuffle(<16 x i8> %from, <16 x i8> %by)
  store <16 x i8> %made, ptr %to, align 1
  ret void
}
