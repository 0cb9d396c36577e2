// All coprime pairs of odd codes of degree n, by NTL's greatest common divisor. The polynomials are made once, before they are paired.
#include <NTL/GF2X.h>

#include <cstdint>
#include <vector>

static NTL::GF2X polynomial(uint32_t code)
{
    NTL::GF2X f;
    for (long j = 0; j < 32; j++)
        SetCoeff(f, j, code >> j & 1);
    return f;
}

extern "C" size_t filter_ntl(uint32_t n, uint32_t *out)
{
    std::vector<NTL::GF2X> odd;
    for (uint32_t code = (1u << n) + 1; code < 2u << n; code += 2)
        odd.push_back(polynomial(code));
    NTL::GF2X divisor;
    size_t pairs = 0;
    for (size_t i = 0; i < odd.size() * odd.size(); i++) {
        uint32_t f = i / odd.size(), g = i % odd.size();
        GCD(divisor, odd[f], odd[g]);
        if (IsOne(divisor)) {
            out[2 * pairs] = (1u << n) + 1 + 2 * f;
            out[2 * pairs++ + 1] = (1u << n) + 1 + 2 * g;
        }
    }
    return pairs;
}
