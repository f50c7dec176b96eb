// The decoder with SSE2 intrinsics. The plan is turned once into a list of steps, which each sweep goes through.
#include "baseline.h"
#include "flips.h"
#include "kinds.h"
#include "vectors.h"

#include <string.h>

// The list of the right child after a rate-0 left child: L[k] + L[k + h].
INLINE void right_list_rate_0(const int32_t *list, int32_t *out, size_t h) {
    for (size_t k = 0; k < h; k += 4) store(out + k, _mm_add_epi32(load(list + k), load(list + k + h)));
}

// The node's message after a rate-0 left child, and with a rate-1 right child.
INLINE void node_message_rate_0(const int32_t *list, const int32_t *children, int32_t *message, size_t h) {
    for (size_t k = 0; k < h; k += 4) {
        vector right = load(children + k + h);
        store(message + k, plus(right, load(list + k + h)));
        store(message + k + h, plus(right, load(list + k)));
    }
}

INLINE void node_message_rate_1(const int32_t *list, const int32_t *children, int32_t *message, size_t h) {
    for (size_t k = 0; k < h; k += 4) {
        vector left = load(children + k);
        store(message + k, box(left, load(list + k + h)));
        store(message + k + h, box(load(list + k), left));
    }
}

// The other pair of a vector's words, and the other word of each pair.
INLINE vector other_pair(vector a) { return _mm_shuffle_epi32(a, 0x4E); }
INLINE vector other_word(vector a) { return _mm_shuffle_epi32(a, 0xB1); }

// The sums of the four classes of places modulo 4.
INLINE vector class_sums(const int32_t *list, size_t size) {
    vector sum = load(list);
    for (size_t k = 4; k < size; k += 4) sum = _mm_add_epi32(sum, load(list + k));
    return sum;
}

// A sum less the own value.
INLINE void less_own(const int32_t *list, int32_t *message, size_t size, vector sum) {
    for (size_t k = 0; k < size; k += 4) store(message + k, _mm_sub_epi32(sum, load(list + k)));
}

// REP, of 4 words or more; with stride 2, over even and over odd places.
static void rep_message(const int32_t *list, int32_t *message, size_t size, int stride) {
    vector sum = class_sums(list, size);
    sum = _mm_add_epi32(sum, other_pair(sum));
    if (stride == 1) sum = _mm_add_epi32(sum, other_word(sum));
    less_own(list, message, size, sum);
}

// Type II: the sum of the others of the own class, plus the box of the three other classes' sums.
static void type_ii_message(const int32_t *list, int32_t *message, size_t size) {
    vector sums = class_sums(list, size), pairs = box(sums, other_word(sums));
    less_own(list, message, size, _mm_add_epi32(sums, box(other_word(sums), other_pair(pairs))));
}

// The least and the second least size of a group of places, and the product of their signs, for four groups.
typedef struct {
    vector least, next, signs;
} gathered;

INLINE gathered join(gathered a, gathered b) {
    gathered both;
    both.least = least_of(a.least, b.least);
    both.next = least_of(least_of(a.next, b.next), largest_of(a.least, b.least));
    both.signs = _mm_xor_si128(a.signs, b.signs);
    return both;
}

// The groups are the four classes of places modulo 4.
INLINE gathered gather(const int32_t *list, size_t size) {
    gathered g = {size_of(load(list)), _mm_set1_epi32(CERTAIN), load(list)};
    for (size_t k = 4; k < size; k += 4) {
        vector x = load(list + k), s = size_of(x);
        g.next = least_of(g.next, largest_of(g.least, s));
        g.least = least_of(g.least, s);
        g.signs = _mm_xor_si128(g.signs, x);
    }
    return g;
}

INLINE vector with_sign(vector size, vector signs) {
    vector sign = _mm_srai_epi32(signs, 31);
    return _mm_sub_epi32(_mm_xor_si128(size, sign), sign);
}

// `other.next` where the size is the least, `other.least` elsewhere, with the product of the other signs.
INLINE void spread(const int32_t *list, int32_t *message, size_t size, vector least, gathered other) {
    for (size_t k = 0; k < size; k += 4) {
        vector x = load(list + k), value = choose(_mm_cmpeq_epi32(size_of(x), least), other.next, other.least);
        store(message + k, with_sign(value, _mm_xor_si128(x, other.signs)));
    }
}

// SPC, of 4 words or more; with stride 2, over even and over odd places.
static void spc_message(const int32_t *list, int32_t *message, size_t size, int stride) {
    gathered g = gather(list, size);
    g = join(g, (gathered){other_pair(g.least), other_pair(g.next), other_pair(g.signs)});
    if (stride == 1) g = join(g, (gathered){other_word(g.least), other_word(g.next), other_word(g.signs)});
    spread(list, message, size, g.least, g);
}

// Type IV: the box over the others of the own class, boxed with the sum of the three other classes' boxes.
static void type_iv_message(const int32_t *list, int32_t *message, size_t size) {
    gathered g = gather(list, size);
    vector boxes = with_sign(g.least, g.signs), pairs = _mm_add_epi32(boxes, other_word(boxes));
    vector others = _mm_add_epi32(other_word(boxes), other_pair(pairs)), most = size_of(others);
    gathered other = {least_of(g.least, most), least_of(g.next, most), _mm_xor_si128(g.signs, others)};
    spread(list, message, size, g.least, other);
}

static void fill(int32_t *words, size_t n, int32_t value) {
    for (size_t k = 0; k < n; k++) words[k] = value;
}

enum {
    LEFT,
    RIGHT,
    RIGHT_RATE_0,
    NODE,
    NODE_RATE_0,
    NODE_RATE_1,
    CUT_RATE_0,
    CUT_SPC,
    CUT_REP,
    CUT_TYPE_III,
    CUT_TYPE_I,
    CUT_TYPE_II,
    CUT_TYPE_IV,
    CUT_PAIR
};

// A step of a sweep. `size` is that of the cut node, else half that of the node; `list` is where the node's incoming
// list stands among the lists, `message` where the cut node's message, else the left child's message stands among the
// messages.
typedef struct {
    uint8_t what;
    uint16_t size, list, message;
} step;

// The messages of each depth are a row of N words, the root's first; a child's list stands behind its parent's.
typedef struct {
    const uint8_t *mask, *plan;
    const uint16_t *frozen; // frozen positions before each position
    size_t n;
    step *steps;
    size_t step_count;
    step *zeros; // messages of rate-1 cut nodes, which are stored once
    size_t zero_count;
    size_t cuts;
    uint32_t cycles;
    int fault;
} builder;

// The kind of a cut node, or UNCUT.
static int kind_of(const builder *b, size_t node, size_t start, size_t size) {
    if (!b->plan[node]) return UNCUT;
    size_t frozen = b->frozen[start + size] - b->frozen[start];
    return kind_of_part(b->mask + start, size, frozen);
}

static void add_step(builder *b, int what, size_t size, size_t list, size_t message) {
    b->steps[b->step_count++] = (step){(uint8_t)what, (uint16_t)size, (uint16_t)list, (uint16_t)message};
}

static void build_cut(builder *b, int kind, size_t size, size_t list, size_t message) {
    b->cuts++;
    if (size == 1) return; // a leaf's message stands for good
    if (kind == NO_KIND) b->fault = 1;
    else if (kind == RATE_1) b->zeros[b->zero_count++] = (step){0, (uint16_t)size, 0, (uint16_t)message};
    else if (kind == RATE_0) add_step(b, CUT_RATE_0, size, list, message);
    else add_step(b, size == 2 ? CUT_PAIR : CUT_SPC + kind - SPC, size, list, message);
    b->cycles += cut_cycles(kind);
}

// The steps of a visit of a node of this kind.
static void build(builder *b, size_t node, int kind, size_t start, size_t size, size_t list, size_t message) {
    if (kind != UNCUT) {
        build_cut(b, kind, size, list, message);
        return;
    }
    if (size == 1) {
        b->fault = 1;
        return;
    }
    size_t h = size / 2, child_list = list + size, child = message + b->n;
    int left = kind_of(b, 2 * node, start, h), right = kind_of(b, 2 * node + 1, start + h, h);
    if (left > RATE_1) add_step(b, LEFT, h, list, child);
    build(b, 2 * node, left, start, h, child_list, child);
    if (right > RATE_1) add_step(b, left == RATE_0 ? RIGHT_RATE_0 : RIGHT, h, list, child);
    build(b, 2 * node + 1, right, start + h, h, child_list, child + h);
    add_step(b, left == RATE_0 ? NODE_RATE_0 : right == RATE_1 ? NODE_RATE_1 : NODE, h, list, child);
    b->cycles += 2 + (left > RATE_1 ? 2 : 0) + (right > RATE_1 ? 2 : 0);
}

// A step of a node of 2 or 4 positions.
static void small_step(int what, const int32_t *list, int32_t *children, int32_t *out, int32_t *message, size_t h) {
    for (size_t k = 0; k < h; k++) {
        int32_t first = list[k], second = list[k + h], left = children[k], right = children[k + h];
        if (what == LEFT) out[k] = small_box(first, small_plus(right, second));
        else if (what == RIGHT || what == RIGHT_RATE_0) out[k] = small_box(first, left) + second;
        else {
            message[k] = small_box(left, small_plus(right, second));
            message[k + h] = small_plus(right, small_box(first, left));
        }
    }
}

static void large_step(int what, const int32_t *list, int32_t *children, int32_t *out, int32_t *message, size_t h,
                       int first) {
    switch (what) {
    case LEFT:
        if (first) COMBINE(first_left_list, h, list, out);
        else COMBINE(left_list, h, list, children + h, out);
        break;
    case RIGHT: COMBINE(right_list, h, list, children, out); break;
    case RIGHT_RATE_0: COMBINE(right_list_rate_0, h, list, out); break;
    case NODE: COMBINE(node_message, h, list, children, message); break;
    case NODE_RATE_0: COMBINE(node_message_rate_0, h, list, children, message); break;
    case NODE_RATE_1: COMBINE(node_message_rate_1, h, list, children, message); break;
    }
}

static void cut_step(int what, const int32_t *list, int32_t *message, size_t size) {
    switch (what) {
    case CUT_RATE_0: fill(message, size, CERTAIN); break;
    case CUT_SPC: spc_message(list, message, size, 1); break;
    case CUT_REP: rep_message(list, message, size, 1); break;
    case CUT_TYPE_III: spc_message(list, message, size, 2); break;
    case CUT_TYPE_I: rep_message(list, message, size, 2); break;
    case CUT_TYPE_II: type_ii_message(list, message, size); break;
    case CUT_TYPE_IV: type_iv_message(list, message, size); break;
    case CUT_PAIR:
        message[0] = list[1];
        message[1] = list[0];
        break;
    }
}

static void sweep(const step *steps, size_t count, size_t n, int32_t *messages, int32_t *lists, int first) {
    for (const step *s = steps; s < steps + count; s++) {
        size_t size = s->size;
        int32_t *list = lists + s->list, *message = messages + s->message;
        if (s->what >= CUT_RATE_0) cut_step(s->what, list, message, size);
        else if (size >= 4) large_step(s->what, list, message, list + 2 * size, message - n, size, first);
        else small_step(s->what, list, message, list + 2 * size, message - n, size);
    }
}

static int above_one(const uint8_t *bytes, size_t n) {
    uint8_t all = 0;
    for (size_t i = 0; i < n; i++) all |= bytes[i];
    return all > 1;
}

// The sum of the two 64-bit numbers of a vector.
INLINE size_t sum_of(vector a) {
    return (size_t)_mm_cvtsi128_si64(a) + (size_t)_mm_cvtsi128_si64(_mm_srli_si128(a, 8));
}

static size_t count_ones(const uint8_t *bytes, size_t n) {
    vector sums = _mm_setzero_si128();
    size_t i = 0;
    for (; i + 16 <= n; i += 16)
        sums = _mm_add_epi64(sums, _mm_sad_epu8(_mm_loadu_si128((const vector *)(bytes + i)), _mm_setzero_si128()));
    size_t ones = sum_of(sums);
    for (; i < n; i++) ones += bytes[i];
    return ones;
}

// Eight sums, of root's message and list, in 16 bits: what is too large for these keeps its sign.
INLINE vector eight_sums(const int32_t *message, const int32_t *list) {
    return _mm_packs_epi32(plus(load(message), load(list)), plus(load(message + 4), load(list + 4)));
}

// Soft values and hard bits from the root's message and list, 2 where the sum is 0; how many are 2.
static size_t decide(const int32_t *message, const int32_t *list, int32_t *soft, uint8_t *hard, size_t n) {
    vector zero = _mm_setzero_si128(), counts = zero;
    size_t i = 0;
    memcpy(soft, message, n * sizeof *soft);
    for (; i + 16 <= n; i += 16) {
        vector sums = _mm_packs_epi16(eight_sums(message + i, list + i), eight_sums(message + i + 8, list + i + 8));
        vector ones = _mm_and_si128(_mm_cmplt_epi8(sums, zero), _mm_set1_epi8(1));
        vector twos = _mm_and_si128(_mm_cmpeq_epi8(sums, zero), _mm_set1_epi8(2));
        _mm_storeu_si128((vector *)(hard + i), _mm_or_si128(ones, twos));
        counts = _mm_add_epi64(counts, _mm_sad_epu8(twos, zero));
    }
    size_t undecided = sum_of(counts) / 2;
    for (; i < n; i++) {
        int32_t sum = small_plus(message[i], list[i]);
        hard[i] = sum == 0 ? 2 : sum < 0;
        undecided += sum == 0;
    }
    return undecided;
}

// Payload from a hard word with no 2; the frozen check.
static int read_off(const uint8_t *mask, size_t n, size_t unfrozen, const uint8_t *hard, uint8_t *payload) {
    uint8_t u[1024] = {0}, found[1024 + 1], wrong = 0;
    memcpy(u, hard, n);
    transform(u, n);
    for (size_t i = 0; i < n; i++) wrong |= u[i] & mask[i];
    size_t k = 0;
    for (size_t i = 0; i < n; i++) {
        found[k] = u[i];
        k += 1 - mask[i];
    }
    memcpy(payload, found, unfrozen);
    return !wrong;
}

static void sweep_all(const builder *b, size_t t, const int16_t *llrs, const flips *f, size_t sweeps, int32_t *work) {
    size_t n = b->n;
    int32_t *lists = work + n * (t + 1), *leaves = work + n * t;
    for (size_t i = 0; i < n; i++) lists[i] = llrs[i];
    flip_words(f, lists, n);
    for (size_t i = 0; i < n; i++) leaves[i] = b->mask[i] ? CERTAIN : 0;
    fill(leaves - n, n, 0); // read by a small step before it is written
    for (size_t i = 0; i < b->zero_count; i++) fill(work + b->zeros[i].message, b->zeros[i].size, 0);
    sweep(b->steps, b->step_count, n, work, lists, 1);
    for (size_t s = 1; s < sweeps; s++) sweep(b->steps, b->step_count, n, work, lists, 0);
}

static void count_frozen(const uint8_t *mask, size_t n, uint16_t *frozen) {
    uint16_t count = 0;
    frozen[0] = 0;
    for (size_t i = 0; i < n; i++) frozen[i + 1] = count = (uint16_t)(count + mask[i]);
}

uint64_t sse2_decode(const uint8_t *mask, size_t n, const uint8_t *plan, size_t plan_length, size_t sweeps,
                     const int16_t *llrs, size_t llrs_length, int32_t *soft, size_t soft_length, uint8_t *hard,
                     size_t hard_length, uint8_t *payload, size_t payload_length, int32_t *work, size_t work_length) {
    if (n < 2 || n > 1024 || (n & (n - 1))) return 1;
    uint8_t largest = largest_byte(mask, n);
    if (largest > 2) return 2;
    if (llrs_length != n) return 3;
    if (sweeps < 1 || sweeps > 8) return 4;
    if (plan_length != 2 * n || above_one(plan, 2 * n) || plan[0]) return 5;
    flips f;
    mask = frozen_to_zero(mask, n, largest, &f);
    uint16_t frozen[1024 + 1];
    step steps[4 * 1024], zeros[1024];
    count_frozen(mask, n, frozen);
    builder b = {mask, plan, frozen, n, steps, 0, zeros, 0, 0, 0, 0};
    build(&b, 1, kind_of(&b, 1, 0, n), 0, n, 0, 0);
    // A cut below a cut is one that the walk does not meet.
    if (b.fault || b.cuts != count_ones(plan, 2 * n)) return 6;
    if (has_lowest(llrs, n)) return 7;
    size_t t = (size_t)__builtin_ctzl(n), words = n * (t + 3), unfrozen = n - frozen[n];
    if (soft_length < n || hard_length < n || payload_length < unfrozen) return 11;
    if (work_length < words) return 12;
    if (f.any) transform(f.word, n);
    sweep_all(&b, t, llrs, &f, sweeps, work);
    uint64_t undecided = decide(work, work + n * (t + 1), soft, hard, n), check = 0;
    if (undecided) memset(payload, 2, unfrozen);
    else check = (uint64_t)read_off(mask, n, unfrozen, hard, payload);
    flip_words(&f, soft, n);
    flip_bits(&f, hard, n);
    memset(work, 0, words * sizeof *work);
    return 256 * (uint64_t)b.cycles * sweeps + (check << 40) + (undecided << 41);
}
