// Encoder, transform, planner, front end, masks and decoder in plain C, as one would write them without intrinsics.
#include "baseline.h"
#include "flips.h"
#include "kinds.h"
#include "slips.h"

#include <math.h>
#include <stdlib.h>
#include <string.h>

#define CERTAIN INT32_MAX

// The exponent of an allowed length, else 0.
static int exponent_of(size_t n) {
    for (int t = 1; t <= 10; t++)
        if (n == (size_t)1 << t) return t;
    return 0;
}

static int above_one(const uint8_t *bytes, size_t n) {
    uint8_t all = 0;
    for (size_t i = 0; i < n; i++) all |= bytes[i];
    return all > 1;
}

static size_t count_ones(const uint8_t *bytes, size_t n) {
    size_t ones = 0;
    for (size_t i = 0; i < n; i++) ones += bytes[i];
    return ones;
}

static void transform(uint8_t *bits, size_t n) {
    for (size_t h = 1; h < n; h *= 2)
        for (size_t i = 0; i < n; i += 2 * h)
            for (size_t j = i; j < i + h; j++) bits[j] ^= bits[j + h];
}

static int kind_of(const uint8_t *mask, size_t size) { return kind_of_part(mask, size, count_ones(mask, size)); }

// The kind of a pattern that is of some kind.
static int known_kind(const uint8_t *mask, size_t size) {
    if (mask[size - 1]) return RATE_0;
    if (!mask[0]) return RATE_1;
    if (!mask[1]) return SPC;
    if (mask[size - 2]) return REP;
    if (!mask[2]) return TYPE_III;
    if (mask[size - 3]) return TYPE_I;
    return mask[size - 4] ? TYPE_II : TYPE_IV;
}

// The cycles of a sweep at an uncut node whose children are of these kinds, or UNCUT.
static uint32_t edge_cycles(int left, int right) { return 2 + (left > RATE_1 ? 2 : 0) + (right > RATE_1 ? 2 : 0); }

// Encoder.
uint64_t plain_encode(const uint8_t *mask, size_t n, const uint8_t *payload, size_t payload_length, uint8_t *word,
                      size_t word_length) {
    if (!exponent_of(n)) return 1;
    uint8_t largest = largest_byte(mask, n);
    if (largest > 2) return 2;
    flips f;
    const uint8_t *zeros = frozen_to_zero(mask, n, largest, &f);
    if (payload_length != n - count_ones(zeros, n)) return 3;
    if (above_one(payload, payload_length)) return 10;
    if (word_length < n) return 11;
    size_t k = 0;
    for (size_t i = 0; i < n; i++) word[i] = zeros[i] ? 0 : payload[k++];
    if (f.any)
        for (size_t i = 0; i < n; i++) word[i] |= f.word[i];
    transform(word, n);
    return 0;
}

uint64_t plain_transform(uint8_t *bits, size_t n) {
    if (!exponent_of(n)) return 1;
    for (size_t i = 0; i < n; i++) bits[i] &= 1;
    transform(bits, n);
    return 0;
}

// Front end: y / v rounded once, doubled, to the nearest whole number, halves away from zero, clamped.
static int16_t llr_of(float y, float variance) {
    double twice = 2 * (double)(y / variance);
    if (twice > 32767) twice = 32767;
    if (twice < -32767) twice = -32767;
    return (int16_t)(twice + copysign(0.5, twice));
}

uint64_t plain_samples(const float *samples, size_t n, const uint8_t *marks, size_t marks_length, float variance,
                       int16_t *llrs, size_t llrs_length) {
    if (!exponent_of(n)) return 1;
    if (marks_length != n) return 3;
    if (!isfinite(variance) || !(variance > 0)) return 8;
    for (size_t i = 0; i < n; i++)
        if (marks[i] > 2 || (marks[i] == 0 && !isfinite(samples[i]))) return 9;
    if (llrs_length < n) return 11;
    for (size_t i = 0; i < n; i++) llrs[i] = marks[i] == 0 ? llr_of(samples[i], variance) : marks[i] == 1 ? 0 : 32767;
    return 0;
}

// Planner: cuts each node of a kind that has no such node above it; the kind, or UNCUT.
static int plan_node(const uint8_t *mask, size_t size, uint8_t *plan, size_t node, uint32_t *counts, uint32_t *cycles) {
    int kind = kind_of(mask, size);
    if (kind != NO_KIND) {
        plan[node] = 1;
        counts[kind]++;
        *cycles += cut_cycles(kind);
        return kind;
    }
    size_t half = size / 2;
    int left = plan_node(mask, half, plan, 2 * node, counts, cycles);
    int right = plan_node(mask + half, half, plan, 2 * node + 1, counts, cycles);
    *cycles += edge_cycles(left, right);
    return UNCUT;
}

// A position with its erasure rate, in the order in which positions are frozen.
typedef struct {
    double rate;
    uint16_t position;
} rated;

static int by_rate(const void *a, const void *b) {
    const rated *x = a, *y = b;
    if (x->rate != y->rate) return x->rate > y->rate ? -1 : 1;
    return x->position < y->position ? -1 : 1;
}

// All positions sorted by their rates, with qsort of the C library.
uint64_t plain_mask_by_erasure(size_t n, size_t k, double z, uint8_t *mask, size_t mask_length) {
    if (!exponent_of(n)) return 1;
    if (k > n) return 16;
    if (!(z > 0 && z < 1)) return 20;
    if (mask_length < n) return 11;
    rated all[1024];
    all[0].rate = z;
    for (size_t m = 1; m < n; m *= 2)
        for (size_t i = m; i-- > 0;) {
            double a = all[i].rate, square = a * a;
            all[2 * i].rate = 2 * a - square;
            all[2 * i + 1].rate = square;
        }
    for (size_t i = 0; i < n; i++) all[i].position = (uint16_t)i;
    qsort(all, n, sizeof *all, by_rate);
    for (size_t i = 0; i < n; i++) mask[all[i].position] = i < n - k;
    return 0;
}

// How many positions of each number of ones are unfrozen; then the positions from the largest down.
uint64_t plain_mask_by_weight(size_t n, size_t k, uint8_t *mask, size_t mask_length) {
    if (!exponent_of(n)) return 1;
    if (k > n) return 16;
    if (mask_length < n) return 11;
    size_t unfrozen[11] = {0}, left = k;
    for (size_t i = 0; i < n; i++) unfrozen[__builtin_popcountll(i)]++;
    for (int ones = 10; ones >= 0; ones--) {
        if (unfrozen[ones] > left) unfrozen[ones] = left;
        left -= unfrozen[ones];
    }
    for (size_t i = n; i-- > 0;) {
        size_t *more = &unfrozen[__builtin_popcountll(i)];
        mask[i] = *more == 0;
        *more -= *more > 0;
    }
    return 0;
}

// The least weight of the mask's words is that of the lightest row of an unfrozen position.
uint64_t plain_mask_for_distance(size_t n, size_t k, size_t d, uint8_t *mask, size_t mask_length) {
    if (!exponent_of(n)) return 1;
    if (k > n) return 16;
    if (!k || !d) return 17;
    if (mask_length < n) return 11;
    uint8_t made[1024];
    plain_mask_by_weight(n, k, made, n);
    size_t least = n;
    for (size_t i = 0; i < n; i++) {
        size_t weight = (size_t)1 << __builtin_popcountll(i);
        if (!made[i] && weight < least) least = weight;
    }
    if (least < d) return 0;
    memcpy(mask, made, n);
    return 256;
}

uint64_t plain_plan(const uint8_t *mask, size_t n, uint8_t *plan, size_t plan_length, uint32_t *counts) {
    if (!exponent_of(n)) return 1;
    uint8_t largest = largest_byte(mask, n);
    if (largest > 2) return 2;
    if (plan_length < 2 * n) return 11;
    uint32_t cycles = 0;
    flips f;
    memset(plan, 0, 2 * n);
    memset(counts, 0, KINDS * sizeof *counts);
    plan_node(frozen_to_zero(mask, n, largest, &f), n, plan, 1, counts, &cycles);
    return 256 * (uint64_t)cycles;
}

// The workspace of a decode: a row of N messages for each depth, the root's first, then the incoming lists of the nodes
// on the way from the root to the node visited, each behind its parent's.
typedef struct {
    const uint8_t *mask, *plan;
    size_t n;
} decoder;

static int32_t box(int32_t a, int32_t b) {
    int32_t x = a < 0 ? -a : a, y = b < 0 ? -b : b, least = x < y ? x : y;
    return (a < 0) != (b < 0) ? -least : least;
}

static int32_t plus(int32_t message, int32_t value) { return message == CERTAIN ? CERTAIN : message + value; }

static void rep_message(const int32_t *restrict list, int32_t *restrict message, size_t size, size_t stride) {
    for (size_t first = 0; first < stride; first++) {
        int32_t sum = 0;
        for (size_t k = first; k < size; k += stride) sum += list[k];
        for (size_t k = first; k < size; k += stride) message[k] = SLIP == OWN_VALUE ? sum : sum - list[k];
    }
}

static void spc_message(const int32_t *restrict list, int32_t *restrict message, size_t size, size_t stride) {
    for (size_t first = 0; first < stride; first++) {
        int32_t least = CERTAIN, next = CERTAIN, signs = 0, least_places = 0;
        for (size_t k = first; k < size; k += stride) {
            int32_t x = list[k] < 0 ? -list[k] : list[k], larger = x < least ? least : x;
            signs ^= list[k];
            next = larger < next ? larger : next;
            least = x < least ? x : least;
        }
        for (size_t k = first; k < size; k += stride) {
            int32_t x = list[k] < 0 ? -list[k] : list[k], other = x == least && SLIP != LEAST_PLACE ? next : least;
            // Equation 11 has the product of the other signs at one place of the least size, elsewhere the own sign.
            int own_sign = SLIP == EVEN_PARITY && (x != least || least_places++);
            message[k] = (own_sign ? list[k] : signs ^ list[k]) < 0 ? -other : other;
        }
    }
}

// The sum of the others of the own class modulo 4, plus the box of the three other classes' sums.
static void type_ii_message(const int32_t *restrict list, int32_t *restrict message, size_t size) {
    int32_t sums[4] = {0}, totals[4];
    for (size_t k = 0; k < size; k += 4)
        for (size_t c = 0; c < 4; c++) sums[c] += list[k + c];
    int32_t other_pair[2] = {box(sums[2], sums[3]), box(sums[0], sums[1])};
    for (size_t c = 0; c < 4; c++) totals[c] = sums[c] + box(sums[c ^ 1], other_pair[c / 2]);
    for (size_t k = 0; k < size; k += 4)
        for (size_t c = 0; c < 4; c++) message[k + c] = totals[c] - list[k + c];
}

// The box over the others of the own class modulo 4, boxed with the sum of the three other classes' boxes.
static void type_iv_message(const int32_t *restrict list, int32_t *restrict message, size_t size) {
    int32_t least[4], next[4], signs[4], boxes[4], where_least[4], elsewhere[4], sum = 0;
    for (size_t c = 0; c < 4; c++) least[c] = next[c] = CERTAIN, signs[c] = 0;
    for (size_t k = 0; k < size; k += 4)
        for (size_t c = 0; c < 4; c++) {
            int32_t value = list[k + c], x = value < 0 ? -value : value, larger = x < least[c] ? least[c] : x;
            signs[c] ^= value;
            next[c] = larger < next[c] ? larger : next[c];
            least[c] = x < least[c] ? x : least[c];
        }
    for (size_t c = 0; c < 4; c++) sum += boxes[c] = signs[c] < 0 ? -least[c] : least[c];
    for (size_t c = 0; c < 4; c++) {
        int32_t others = sum - boxes[c], most = others < 0 ? -others : others;
        signs[c] ^= others;
        where_least[c] = next[c] < most ? next[c] : most;
        elsewhere[c] = least[c] < most ? least[c] : most;
    }
    for (size_t k = 0; k < size; k += 4)
        for (size_t c = 0; c < 4; c++) {
            int32_t value = list[k + c], x = value < 0 ? -value : value;
            int32_t other = x == least[c] ? where_least[c] : elsewhere[c];
            message[k + c] = (signs[c] ^ value) < 0 ? -other : other;
        }
}

static void fill(int32_t *words, size_t n, int32_t value) {
    for (size_t k = 0; k < n; k++) words[k] = value;
}

static void cut_message(const uint8_t *mask, const int32_t *list, int32_t *message, size_t size) {
    switch (known_kind(mask, size)) {
    case RATE_0: fill(message, size, CERTAIN); break;
    case RATE_1: fill(message, size, 0); break;
    case SPC: spc_message(list, message, size, 1); break;
    case REP: rep_message(list, message, size, 1); break;
    case TYPE_III: spc_message(list, message, size, 2); break;
    case TYPE_I: rep_message(list, message, size, 2); break;
    case TYPE_II: type_ii_message(list, message, size); break;
    case TYPE_IV: type_iv_message(list, message, size); break;
    }
}

// The list of the left child: box(L[k], L[k + h] + r[k]).
static void left_list(const int32_t *restrict list, const int32_t *restrict right, int32_t *restrict out, size_t h) {
    for (size_t k = 0; k < h; k++) out[k] = box(list[k], plus(right[k], list[k + h]));
}

// The list of the right child: box(L[k], l[k]) + L[k + h].
static void right_list(const int32_t *restrict list, const int32_t *restrict left, int32_t *restrict out, size_t h) {
    for (size_t k = 0; k < h; k++) out[k] = box(list[k], left[k]) + list[k + h];
}

// The node's message from its children's, which stand one behind the other.
static void node_message(const int32_t *restrict list, const int32_t *restrict children, int32_t *restrict message,
                         size_t h) {
    for (size_t k = 0; k < h; k++) {
        int32_t left = children[k], right = children[k + h];
        message[k] = box(left, plus(right, list[k + h]));
        message[k + h] = plus(right, box(list[k], left));
    }
}

static int needs_list(const decoder *d, size_t node, size_t start, size_t size) {
    return !d->plan[node] || known_kind(d->mask + start, size) > RATE_1;
}

static void visit(const decoder *d, size_t node, int32_t *list, int32_t *message, size_t start, size_t size) {
    if (d->plan[node]) {
        cut_message(d->mask + start, list, message, size);
        return;
    }
    size_t h = size / 2;
    int32_t *child_list = list + size, *left = message + d->n, *right = left + h;
    if (needs_list(d, 2 * node, start, h)) left_list(list, right, child_list, h);
    visit(d, 2 * node, child_list, left, start, h);
    if (needs_list(d, 2 * node + 1, start + h, h)) right_list(list, left, child_list, h);
    visit(d, 2 * node + 1, child_list, right, start + h, h);
    node_message(list, left, message, h);
}

typedef struct {
    size_t cuts;
    uint32_t cycles;
    int fault;
} plan_facts;

// The cuts of a node's part of a plan, with no cut above, and its cycles; the node's kind, or UNCUT.
static int check_node(const uint8_t *mask, size_t size, const uint8_t *plan, size_t node, plan_facts *facts) {
    if (plan[node]) {
        int kind = kind_of(mask, size);
        facts->cuts++;
        facts->cycles += cut_cycles(kind);
        facts->fault |= kind == NO_KIND;
        return kind;
    }
    if (size == 1) {
        facts->fault = 1;
        return UNCUT;
    }
    size_t half = size / 2;
    int left = check_node(mask, half, plan, 2 * node, facts);
    int right = check_node(mask + half, half, plan, 2 * node + 1, facts);
    facts->cycles += edge_cycles(left, right);
    return UNCUT;
}

// Tests 5 and 6; the cycles of one sweep.
static uint64_t test_plan(const uint8_t *mask, size_t n, const uint8_t *plan, size_t plan_length, uint32_t *cycles) {
    if (plan_length != 2 * n || above_one(plan, 2 * n) || plan[0]) return 5;
    plan_facts facts = {0, 0, 0};
    check_node(mask, n, plan, 1, &facts);
    // A cut below a cut is one that the walk does not meet.
    if (facts.fault || facts.cuts != count_ones(plan, 2 * n)) return 6;
    *cycles = facts.cycles;
    return 0;
}

static int has_lowest(const int16_t *llrs, size_t n) {
    int found = 0;
    for (size_t i = 0; i < n; i++) found |= llrs[i] == INT16_MIN;
    return found;
}

// The slip START_CERTAIN: the larger nodes that have only frozen positions.
static void start_certain(const uint8_t *mask, size_t n, int32_t *work) {
    for (size_t size = n; size > 1; size /= 2, work += n)
        for (size_t first = 0; first < n; first += size)
            if (count_ones(mask + first, size) == size) fill(work + first, size, CERTAIN);
}

static void sweep_all(const uint8_t *mask, size_t n, int t, const uint8_t *plan, const int16_t *llrs, const flips *f,
                      size_t sweeps, int32_t *work) {
    decoder d = {mask, plan, n};
    int32_t *lists = work + n * ((size_t)t + 1), *leaves = work + n * (size_t)t;
    memset(work, 0, n * (size_t)t * sizeof *work);
    if (SLIP == START_CERTAIN) start_certain(mask, n, work);
    for (size_t i = 0; i < n; i++) leaves[i] = mask[i] ? CERTAIN : 0;
    for (size_t i = 0; i < n; i++) lists[i] = llrs[i];
    flip_words(f, lists, n);
    for (size_t s = 0; s < sweeps; s++) visit(&d, 1, lists, work, 0, n);
}

// Soft values and hard bits from the root's message and list, 2 where the sum is 0; how many are 2.
static uint32_t decide(const int32_t *restrict message, const int32_t *restrict list, int32_t *restrict soft,
                       uint8_t *restrict hard, size_t n) {
    uint32_t undecided = 0;
    for (size_t i = 0; i < n; i++) {
        int32_t sum = SLIP == SOFT_ALONE ? message[i] : plus(message[i], list[i]);
        uint32_t one = sum < 0, tie = SLIP != TIE_ZERO && sum == 0;
        soft[i] = message[i];
        hard[i] = (uint8_t)(one + 2 * tie);
        undecided += SLIP == ONES_COUNTED ? one : tie;
    }
    return undecided;
}

// Payload from a hard word with no 2; the frozen check.
static int read_off(const uint8_t *mask, size_t n, const uint8_t *hard, uint8_t *payload) {
    uint8_t u[1024], wrong = 0;
    memcpy(u, hard, n);
    transform(u, n);
    size_t k = 0;
    for (size_t i = 0; i < n; i++)
        if (mask[i]) wrong |= u[i];
        else payload[k++] = u[i];
    return !wrong;
}

uint64_t plain_decode(const uint8_t *mask, size_t n, const uint8_t *plan, size_t plan_length, size_t sweeps,
                      const int16_t *llrs, size_t llrs_length, int32_t *soft, size_t soft_length, uint8_t *hard,
                      size_t hard_length, uint8_t *payload, size_t payload_length, int32_t *work, size_t work_length) {
    int t = exponent_of(n);
    if (!t) return 1;
    uint8_t largest = largest_byte(mask, n);
    if (largest > 2) return 2;
    if (llrs_length != n) return 3;
    if (sweeps < 1 || sweeps > 8) return 4;
    flips f;
    const uint8_t *zeros = frozen_to_zero(mask, n, largest, &f);
    uint32_t cycles = 0;
    uint64_t number = test_plan(zeros, n, plan, plan_length, &cycles);
    if (number) return number;
    if (has_lowest(llrs, n)) return 7;
    size_t words = n * ((size_t)t + 3), unfrozen = n - count_ones(zeros, n);
    if (soft_length < n || hard_length < n || payload_length < unfrozen) return 11;
    if (work_length < words) return 12;
    if (f.any) transform(f.word, n);
    sweep_all(zeros, n, t, plan, llrs, &f, sweeps, work);
    uint64_t undecided = decide(work, work + n * ((size_t)t + 1), soft, hard, n), check = 0;
    if (undecided && SLIP != READ_ANYWAY) memset(payload, 2, unfrozen);
    else check = (uint64_t)read_off(zeros, n, hard, payload);
    flip_words(&f, soft, n);
    flip_bits(&f, hard, n);
    memset(work, 0, words * sizeof *work);
    return 256 * (uint64_t)cycles * sweeps + (check << 40) + (undecided << 41);
}

// Lines of one code, for square frames.
void plain_prepare(plain_code *c, const uint8_t *mask, size_t n) {
    uint32_t counts[KINDS] = {0};
    c->mask = frozen_to_zero(mask, n, largest_byte(mask, n), &c->ones);
    c->n = n;
    c->t = exponent_of(n);
    c->cycles = 0;
    memset(c->plan, 0, 2 * n);
    plan_node(c->mask, n, c->plan, 1, counts, &c->cycles);
    if (c->ones.any) transform(c->ones.word, n);
}

void plain_line(const plain_code *c, const int16_t *llrs, int32_t *work) {
    sweep_all(c->mask, c->n, c->t, c->plan, llrs, &c->ones, 1, work);
    flip_words(&c->ones, work, c->n);
}
