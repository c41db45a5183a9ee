/* Calls of the polynomials' functions in libgcrypt's ML-KEM, which are those of the pq-crystals project, as ours.c has them of
   the library's. They are static, and so reached by their file. */
#include "kyber.c"
#include "peers.h"

static poly f, g, product;
static void polynomials(void) {
    memcpy(f.coeffs, coefficients, sizeof f);
    memcpy(g.coeffs, other_coefficients, sizeof g);
}
void before_mlkem_ntt(void) { polynomials(); }
void call_mlkem_ntt(void) { poly_ntt(&f); }
void before_mlkem_inverse_ntt(void) { polynomials(); }
void call_mlkem_inverse_ntt(void) { poly_invntt_tomont(&f); }
void before_mlkem_multiply_ntts(void) { polynomials(); }
void call_mlkem_multiply_ntts(void) { poly_basemul_montgomery(&product, &f, &g); }
void call_mlkem_sample_cbd2(void) { cbd2(&f, text); }
void call_mlkem_sample_cbd3(void) { cbd3(&f, text); }
void before_mlkem_encode_12(void) { polynomials(); }
void call_mlkem_encode_12(void) { poly_tobytes(out, &f); }
void call_mlkem_decode_12(void) { poly_frombytes(&f, text); }
void call_mlkem_message(void) { poly_frommsg((poly *)out, key); }
void before_mlkem_add(void) { polynomials(); }
void call_mlkem_add(void) {
    poly_add(&f, &f, &g);
    poly_reduce(&f);
}
void before_mlkem_subtract(void) { polynomials(); }
void call_mlkem_subtract(void) {
    poly_sub(&f, &f, &g);
    poly_reduce(&f);
}
