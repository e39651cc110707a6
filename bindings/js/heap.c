/* What the library needs beside itself as WebAssembly: memory, and four helpers for 128 bits.
 *
 * Blocks have sizes of powers of two. A block that is given back goes into the list of its size, and the next request
 * of that size takes it from there; nothing is split or joined. So a request costs a few steps, and the memory is at
 * most four times what was taken at one time. The memory grows by at least a MiB, and never shrinks. A request that
 * can't be met is answered null, and changes nothing. Nothing here is proved; tests/heap.test.js holds it against a
 * model. */
typedef unsigned long long u64;
typedef unsigned long usize;
typedef unsigned __int128 u128;
typedef struct { unsigned long is_some, at; } maybe;

enum { HEAD = 16, LEAST = 5, MOST = 40, PAGE = 16, STEP = 16 };

/* What stands before the bytes of a block. `next` has a meaning in a list alone. */
typedef struct block { usize bin; struct block *next; } block;

extern unsigned char __heap_base;
static block *lists[MOST + 1];
static usize top, most;

static int bin_of(usize bytes) {
  int bin = LEAST;
  while (((usize)1 << bin) < bytes) bin++;
  return bin;
}

/* Has the memory reach up to there. */
static int reach(usize end) {
  usize have = __builtin_wasm_memory_size(0) << PAGE;
  if (end <= have) return 1;
  if (most && end > most) return 0;
  usize pages = (end - have + ((usize)1 << PAGE) - 1) >> PAGE;
  if (pages < STEP && (!most || have + ((usize)STEP << PAGE) <= most)) pages = STEP;
  return __builtin_wasm_memory_grow(0, pages) != (usize)-1;
}

/* So many bytes at an address that 16 divides, or null. */
void *hw_take(usize bytes) {
  if (bytes > ((usize)1 << MOST) - HEAD) return 0;
  int bin = bin_of(bytes + HEAD);
  block *found = lists[bin];
  if (found) {
    lists[bin] = found->next;
  } else {
    if (!top) top = ((usize)&__heap_base + HEAD - 1) & ~(usize)(HEAD - 1);
    if (!reach(top + ((usize)1 << bin))) return 0;
    found = (block *)top;
    top += (usize)1 << bin;
    found->bin = bin;
  }
  return (char *)found + HEAD;
}

/* Gives a block back that hw_take answered; null is none. */
void hw_give(void *bytes) {
  if (!bytes) return;
  block *given = (block *)((char *)bytes - HEAD);
  given->next = lists[given->bin];
  lists[given->bin] = given;
}

/* From now on the memory grows to no more than so many bytes; 0 is no limit. */
void hw_heap_limit(usize bytes) { most = bytes; }

static maybe some(void *bytes) { return (maybe){bytes != 0, (usize)bytes}; }

/* What the library calls. No alignment that it asks for is above 16. */
maybe rattle_alloc(usize bytes, usize alignment) { return some(alignment > HEAD ? 0 : hw_take(bytes)); }

void rattle_dealloc(void *bytes) { hw_give(bytes); }

maybe rattle_realloc(void *bytes, usize kept, usize wanted, usize alignment) {
  if (wanted <= ((usize)1 << MOST) && bytes && bin_of(wanted + HEAD) <= (int)((block *)((char *)bytes - HEAD))->bin)
    return some(bytes);
  void *moved = alignment > HEAD ? 0 : hw_take(wanted);
  if (moved && bytes) {
    __builtin_memcpy(moved, bytes, kept < wanted ? kept : wanted);
    hw_give(bytes);
  }
  return some(moved);
}

/* For tests: where the block is after a change of its size, or null. */
void *hw_resize(void *bytes, usize kept, usize wanted) {
  return (void *)rattle_realloc(bytes, kept, wanted, HEAD).at;
}

/* ---- arithmetic of 128 bits, which clang calls by these names */

typedef union { u128 whole; u64 half[2]; } halves;

u128 __multi3(u128 left, u128 right) {
  u64 a = left, b = right, a0 = (unsigned)a, a1 = a >> 32, b0 = (unsigned)b, b1 = b >> 32;
  u64 low = a0 * b0, cross = a1 * b0 + (low >> 32), other = a0 * b1 + (unsigned)cross;
  halves product;
  product.half[0] = (other << 32) | (unsigned)low;
  product.half[1] = a1 * b1 + (cross >> 32) + (other >> 32) + a * (u64)(right >> 64) + (u64)(left >> 64) * b;
  return product.whole;
}

u128 __ashlti3(u128 value, int by) {
  halves from, to;
  from.whole = value;
  if (by == 0) return value;
  to.half[0] = by >= 64 ? 0 : from.half[0] << by;
  to.half[1] = by >= 64 ? from.half[0] << (by - 64) : (from.half[1] << by) | (from.half[0] >> (64 - by));
  return to.whole;
}

u128 __lshrti3(u128 value, int by) {
  halves from, to;
  from.whole = value;
  if (by == 0) return value;
  to.half[1] = by >= 64 ? 0 : from.half[1] >> by;
  to.half[0] = by >= 64 ? from.half[1] >> (by - 64) : (from.half[0] >> by) | (from.half[1] << (64 - by));
  return to.whole;
}

u128 __udivti3(u128 value, u128 by) {
  halves from, quotient;
  from.whole = value;
  quotient.whole = 0;
  u128 rest = 0;
  for (int bit = 127; bit >= 0; bit--) {
    int over = ((halves){rest}).half[1] >> 63;
    rest = __ashlti3(rest, 1) | ((from.half[bit / 64] >> (bit % 64)) & 1);
    if (over || rest >= by) {
      rest -= by;
      quotient.half[bit / 64] |= (u64)1 << (bit % 64);
    }
  }
  return quotient.whole;
}

/* For tests: a product, a shift and a quotient, each half by half. */
u64 hw_wide(int what, u64 high, u64 low, u64 other_high, u64 other_low, int is_high) {
  halves left, right, said;
  left.half[0] = low, left.half[1] = high, right.half[0] = other_low, right.half[1] = other_high;
  said.whole = what == 0   ? __multi3(left.whole, right.whole)
               : what == 1 ? __ashlti3(left.whole, (int)other_low)
               : what == 2 ? __lshrti3(left.whole, (int)other_low)
                           : __udivti3(left.whole, right.whole);
  return said.half[is_high];
}
