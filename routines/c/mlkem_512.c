/* ML-KEM-512 for mlkem.c. */
#include "mlkem.h"

#include "mlkem_sample_cbd3.h"

const struct mlkem_kind mlkem_512 = {2, 10, 4, 192, mlkem_sample_cbd3};
