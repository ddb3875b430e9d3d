/* The same method over FLINT: its linear solver, its polynomial gcd and roots, its arithmetic modulo a word.
   The calls are those of the library, under other names, with the same answers. */
#include <flint/flint.h>
#include <flint/nmod_mat.h>
#include <flint/nmod_poly.h>
#include <flint/nmod_poly_factor.h>
#include <flint/nmod_vec.h>
#include <stdint.h>
#include <stdlib.h>
#include <string.h>

#define P UWORD(65537)
#define MOST_VALUES 64
#define CAPACITY 60000

static nmod_t modulus(void)
{
    nmod_t mod;
    nmod_init(&mod, P);
    return mod;
}

static uint64_t refused(uint64_t number, uint64_t place)
{
    return number << 32 | (place < UINT32_MAX ? place : UINT32_MAX);
}

static const uint64_t MORE = (uint64_t) UINT32_MAX << 32;

/* 0, or the refusal. */
static uint64_t check_letter(const uint64_t *note, size_t len)
{
    if (len < 1 || note[0] > MOST_VALUES)
        return refused(1, 0);
    if (len < 2 || note[1] > P)
        return refused(1, 1);
    for (size_t i = 2; i < 2 + note[0]; i++)
        if (i >= len || note[i] >= P)
            return refused(1, i);
    return 0;
}

static uint64_t check_list(const uint64_t *list, size_t len, uint64_t bound)
{
    if (len < 1)
        return refused(2, 0);
    for (size_t i = 1; i <= list[0]; i++)
        if (i >= len || list[i] >= bound || (i > 1 && list[i] <= list[i - 1]))
            return refused(2, i);
    return 0;
}

/* The product of z - n over the cards n at each of the m points z = P - 1, P - 2, .. */
static void values(mp_limb_t *out, size_t m, const uint64_t *cards, size_t count)
{
    nmod_t mod = modulus();
    for (size_t i = 0; i < m; i++)
        out[i] = 1;
    for (size_t k = 0; k < count; k++)
        for (size_t i = 0; i < m; i++)
            out[i] = nmod_mul(out[i], nmod_sub(P - 1 - i, cards[k], mod), mod);
}

/* The place of n among the cards, or where it would stand. */
static size_t search(const uint64_t *cards, size_t count, uint64_t n)
{
    size_t low = 0, high = count;
    while (low < high) {
        size_t middle = low + (high - low) / 2;
        if (cards[middle] < n)
            low = middle + 1;
        else
            high = middle;
    }
    return low;
}

static int contains(const uint64_t *cards, size_t count, uint64_t n)
{
    size_t place = search(cards, count, n);
    return place < count && cards[place] == n;
}

static int ascending(const void *a, const void *b)
{
    uint64_t x = *(const uint64_t *) a, y = *(const uint64_t *) b;
    return (x > y) - (x < y);
}

/* The roots of a polynomial, by rising number, if there are as many as its degree and all are below the bound. */
static int all_roots(uint64_t *out, const nmod_poly_t poly, uint64_t bound)
{
    slong degree = nmod_poly_degree(poly);
    int whole = 1;
    if (degree > 0) {
        nmod_poly_factor_t factors;
        nmod_poly_factor_init(factors);
        nmod_poly_roots(factors, poly, 0);
        whole = factors->num == degree;
        for (slong i = 0; whole && i < degree; i++) {
            out[i] = nmod_neg(nmod_poly_get_coeff_ui(factors->p + i, 0), poly->mod);
            whole = out[i] < bound;
        }
        nmod_poly_factor_clear(factors);
        qsort(out, degree, sizeof *out, ascending);
    }
    return whole;
}

/* A solution of v (z^a + ..) = h (z^b + ..) at all points, as the two polynomials. */
static int solve(nmod_poly_t went, nmod_poly_t came, size_t m, const uint64_t *sent, const mp_limb_t *own, size_t a,
                 size_t b)
{
    nmod_t mod = modulus();
    nmod_mat_t left, right, unknown;
    nmod_mat_init(left, m, a + b, P);
    nmod_mat_init(right, m, 1, P);
    nmod_mat_init(unknown, a + b, 1, P);
    for (size_t i = 0; i < m; i++) {
        mp_limb_t z = P - 1 - i, cell = sent[i], side;
        for (size_t j = 0; j < a; j++) {
            nmod_mat_entry(left, i, j) = cell;
            cell = nmod_mul(cell, z, mod);
        }
        side = cell;
        cell = nmod_neg(own[i], mod);
        for (size_t j = a; j < a + b; j++) {
            nmod_mat_entry(left, i, j) = cell;
            cell = nmod_mul(cell, z, mod);
        }
        nmod_mat_entry(right, i, 0) = nmod_neg(nmod_add(side, cell, mod), mod);
    }
    int solved = nmod_mat_can_solve(unknown, left, right);
    if (solved) {
        for (size_t j = 0; j < a; j++)
            nmod_poly_set_coeff_ui(went, j, nmod_mat_entry(unknown, j, 0));
        nmod_poly_set_coeff_ui(went, a, 1);
        for (size_t j = 0; j < b; j++)
            nmod_poly_set_coeff_ui(came, j, nmod_mat_entry(unknown, a + j, 0));
        nmod_poly_set_coeff_ui(came, b, 1);
    }
    nmod_mat_clear(left);
    nmod_mat_clear(right);
    nmod_mat_clear(unknown);
    return solved;
}

/* Whether the cards gone are here, the cards come are not, and every point fits. */
static int explains(size_t m, const uint64_t *sent, const mp_limb_t *own, const uint64_t *cards, size_t count,
                    const uint64_t *gone, size_t went, const uint64_t *come, size_t came)
{
    nmod_t mod = modulus();
    mp_limb_t lost[MOST_VALUES], won[MOST_VALUES];
    for (size_t i = 0; i < went; i++)
        if (!contains(cards, count, gone[i]))
            return 0;
    for (size_t i = 0; i < came; i++)
        if (contains(cards, count, come[i]))
            return 0;
    values(lost, m, gone, went);
    values(won, m, come, came);
    for (size_t i = 0; i < m; i++)
        if (nmod_mul(sent[i], lost[i], mod) != nmod_mul(own[i], won[i], mod))
            return 0;
    return 1;
}

uint64_t flint_read(const uint64_t *note, size_t note_len, const uint64_t *here, size_t here_len, uint64_t *out,
                    size_t out_len, uint64_t d)
{
    uint64_t fault = check_letter(note, note_len);
    if (fault)
        return fault;
    size_t m = note[0];
    fault = check_list(here, here_len, P - m);
    if (fault)
        return fault;
    if (d > m)
        return refused(3, d);
    if (out_len < d)
        return refused(4, out_len);
    const uint64_t *sent = note + 2, *cards = here + 1;
    int64_t count = here[0], excess = count - (int64_t) note[1];
    mp_limb_t own[MOST_VALUES];
    values(own, m, cards, count);
    if (excess > (int64_t) d || -excess > (int64_t) d)
        return MORE;
    size_t a = ((int64_t) d + excess) / 2, b = a - excess;
    uint64_t answer = MORE;
    nmod_poly_t went, came, common;
    nmod_poly_init(went, P);
    nmod_poly_init(came, P);
    nmod_poly_init(common, P);
    if (solve(went, came, m, sent, own, a, b)) {
        uint64_t gone[MOST_VALUES], come[MOST_VALUES];
        nmod_poly_gcd(common, went, came);
        nmod_poly_div(went, went, common);
        nmod_poly_div(came, came, common);
        size_t lost = nmod_poly_degree(went), won = nmod_poly_degree(came);
        if (all_roots(gone, went, P - m) && all_roots(come, came, P - m)
            && explains(m, sent, own, cards, count, gone, lost, come, won)) {
            memcpy(out, gone, lost * sizeof *out);
            memcpy(out + lost, come, won * sizeof *out);
            answer = lost << 16 | won;
        }
    }
    nmod_poly_clear(went);
    nmod_poly_clear(came);
    nmod_poly_clear(common);
    return answer;
}

uint64_t flint_letter(const uint64_t *list, size_t list_len, uint64_t *out, size_t out_len, uint64_t m)
{
    if (m > MOST_VALUES)
        return refused(1, 0);
    uint64_t fault = check_list(list, list_len, P - m);
    if (fault)
        return fault;
    if (out_len < 2 + m)
        return refused(4, out_len);
    mp_limb_t own[MOST_VALUES];
    values(own, m, list + 1, list[0]);
    out[0] = m;
    out[1] = list[0];
    memcpy(out + 2, own, m * sizeof *out);
    return 2 + m;
}

static uint64_t check_lent(const uint64_t *note, size_t note_len, const uint64_t *list, size_t list_len)
{
    uint64_t fault = check_letter(note, note_len);
    if (fault)
        return fault;
    if (list_len < 1 || list[0] != note[1])
        return refused(2, 0);
    if (list_len < 1 + list[0])
        return refused(2, list_len);
    return 0;
}

uint64_t flint_comes(uint64_t *note, size_t note_len, uint64_t *list, size_t list_len, uint64_t n)
{
    uint64_t fault = check_lent(note, note_len, list, list_len);
    if (fault)
        return fault;
    size_t m = note[0], count = list[0], place = search(list + 1, count, n);
    if (n >= P - m || (place < count && list[1 + place] == n))
        return refused(5, n);
    if (count >= CAPACITY)
        return refused(7, CAPACITY);
    if (list_len < 2 + count)
        return refused(4, list_len);
    memmove(list + 2 + place, list + 1 + place, (count - place) * sizeof *list);
    list[1 + place] = n;
    list[0] = note[1] = count + 1;
    nmod_t mod = modulus();
    for (size_t i = 0; i < m; i++)
        note[2 + i] = nmod_mul(note[2 + i], nmod_sub(P - 1 - i, n, mod), mod);
    return 0;
}

uint64_t flint_goes(uint64_t *note, size_t note_len, uint64_t *list, size_t list_len, uint64_t n)
{
    uint64_t fault = check_lent(note, note_len, list, list_len);
    if (fault)
        return fault;
    size_t m = note[0], count = list[0], place = search(list + 1, count, n);
    if (n >= P - m || place >= count || list[1 + place] != n)
        return refused(6, n);
    memmove(list + 1 + place, list + 2 + place, (count - place - 1) * sizeof *list);
    list[0] = note[1] = count - 1;
    nmod_t mod = modulus();
    for (size_t i = 0; i < m; i++)
        note[2 + i] = nmod_div(note[2 + i], nmod_sub(P - 1 - i, n, mod), mod);
    return 0;
}
