# The module lays memory out for pointers of 8 bytes. What it leaves to the data layout is written out here, so that it holds where they have 4: room for a
# pointer, a pair with a pointer that is read from memory, and an address as a number.
s/ = alloca ptr, align 8$/ = alloca [8 x i8], align 8/
s/ = ptrtoaddr ptr / = ptrtoint ptr /
/ = load {[^}]*ptr/s/^  \(%[a-z0-9]*\) = load { \([a-z0-9]*\), \([a-z0-9]*\) }, ptr \(%[a-z0-9]*\), align \([0-9]*\)$/  \1.first = load \2, ptr \4, align \5\
  \1.at = getelementptr i8, ptr \4, i64 8\
  \1.second = load \3, ptr \1.at, align \5\
  \1.pair = insertvalue { \2, \3 } poison, \2 \1.first, 0\
  \1 = insertvalue { \2, \3 } \1.pair, \3 \1.second, 1/
