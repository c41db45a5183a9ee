/* ML-KEM-1024 for mlkem.c. */
#include "mlkem.h"

#include "mlkem_sample_cbd2.h"

const struct mlkem_kind mlkem_1024 = {4, 11, 5, 128, mlkem_sample_cbd2};
