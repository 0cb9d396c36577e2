/* All coprime pairs of odd codes of degree n, by FLINT's greatest common divisor. The polynomials are made once, before they are paired. */
#include <flint/nmod_poly.h>

#include <stdint.h>
#include <stdlib.h>

static void polynomial(nmod_poly_t f, uint32_t code)
{
    nmod_poly_init(f, 2);
    for (slong j = 0; j < 32; j++)
        nmod_poly_set_coeff_ui(f, j, code >> j & 1);
}

size_t filter_flint(uint32_t n, uint32_t *out)
{
    uint32_t count = 1u << (n - 1);
    nmod_poly_t *odd = malloc(count * sizeof *odd), divisor;
    size_t pairs = 0;
    if (odd == NULL)
        return 0;
    nmod_poly_init(divisor, 2);
    for (uint32_t i = 0; i < count; i++)
        polynomial(odd[i], (1u << n) + 1 + 2 * i);
    for (size_t i = 0; i < (size_t)count * count; i++) {
        nmod_poly_gcd(divisor, odd[i / count], odd[i % count]);
        if (nmod_poly_is_one(divisor)) {
            out[2 * pairs] = (1u << n) + 1 + 2 * (uint32_t)(i / count);
            out[2 * pairs++ + 1] = (1u << n) + 1 + 2 * (uint32_t)(i % count);
        }
    }
    for (uint32_t i = 0; i < count; i++)
        nmod_poly_clear(odd[i]);
    nmod_poly_clear(divisor);
    free(odd);
    return pairs;
}
