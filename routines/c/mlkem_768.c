/* ML-KEM-768 for mlkem.c. */
#include "mlkem.h"

#include "mlkem_sample_cbd2.h"

const struct mlkem_kind mlkem_768 = {3, 10, 4, 128, mlkem_sample_cbd2};
