/* The jobs of src/main.rs by GMP's mpq and by FLINT's fmpq, which src/peers.rs calls. */
#include <flint/fmpq.h>
#include <gmp.h>
#include <stdint.h>
#include <stdlib.h>
#include <string.h>

#define ROWS 1000
#define LONG 10

static void digits(char *text, uint64_t seed) {
  text[0] = '7';
  for (int i = 1; i < 200; i++) {
    seed = seed * 6364136223846793005u + 1442695040888963407u;
    text[i] = '0' + (uint8_t)(seed >> 32) % 10;
  }
}

static char *long_text(uint64_t number) {
  static char text[402];
  digits(text, 2 * number + 1);
  text[200] = '/';
  digits(text + 201, 2 * number + 2);
  text[401] = 0;
  return text;
}

static mpq_t mpq_rows[2][ROWS], mpq_long[2][LONG], mpq_sum, mpq_part;
static fmpq_t fmpq_rows[2][ROWS], fmpq_long[2][LONG], fmpq_sum, fmpq_part;

#define MOST 16
static mpq_t mpq_matrix[MOST][MOST], mpq_factor;
static fmpq_t fmpq_matrix[MOST][MOST], fmpq_factor;

static void set_up(void) {
  mpq_inits(mpq_sum, mpq_part, NULL);
  fmpq_init(fmpq_sum);
  fmpq_init(fmpq_part);
  mpq_init(mpq_factor);
  fmpq_init(fmpq_factor);
  for (int i = 0; i < MOST; i++) {
    for (int j = 0; j < MOST; j++) {
      mpq_init(mpq_matrix[i][j]);
      fmpq_init(fmpq_matrix[i][j]);
    }
  }
  for (int side = 0; side < 2; side++) {
    for (long k = 0; k < ROWS; k++) {
      mpq_init(mpq_rows[side][k]);
      mpq_set_si(mpq_rows[side][k], side ? 1 + k * 104729 % 8000 : 1 + k * 7919 % 100000, side ? 8 : 100);
      mpq_canonicalize(mpq_rows[side][k]);
      fmpq_init(fmpq_rows[side][k]);
      fmpq_set_mpq(fmpq_rows[side][k], mpq_rows[side][k]);
    }
    for (int k = 0; k < LONG; k++) {
      mpq_init(mpq_long[side][k]);
      mpq_set_str(mpq_long[side][k], long_text(side ? k + LONG : k), 10);
      mpq_canonicalize(mpq_long[side][k]);
      fmpq_init(fmpq_long[side][k]);
      fmpq_set_mpq(fmpq_long[side][k], mpq_long[side][k]);
    }
  }
}

/* The number of the matrix of main.rs in this row and column. */
static long numer_at(long i, long j) { return (i * i * 7 + j * 13 + i * j) % 19 - 9; }

static unsigned long denom_at(long i, long j) { return (i * 5 + j * 3) % 7 + 1; }

static void gmp_determinant(long size) {
  for (long i = 0; i < size; i++) {
    for (long j = 0; j < size; j++) {
      mpq_set_si(mpq_matrix[i][j], numer_at(i, j), denom_at(i, j));
      mpq_canonicalize(mpq_matrix[i][j]);
    }
  }
  mpq_set_si(mpq_sum, 1, 1);
  for (long first = 0; first < size; first++) {
    long place = first;
    while (place < size && !mpq_sgn(mpq_matrix[place][first]))
      place++;
    if (place == size) {
      mpq_set_si(mpq_sum, 0, 1);
      return;
    }
    for (; place > first; place--) {
      mpq_neg(mpq_sum, mpq_sum);
      for (long j = 0; j < size; j++)
        mpq_swap(mpq_matrix[place][j], mpq_matrix[place - 1][j]);
    }
    mpq_mul(mpq_sum, mpq_sum, mpq_matrix[first][first]);
    for (long i = first + 1; i < size; i++) {
      mpq_div(mpq_factor, mpq_matrix[i][first], mpq_matrix[first][first]);
      for (long j = first + 1; j < size; j++) {
        mpq_mul(mpq_part, mpq_factor, mpq_matrix[first][j]);
        mpq_sub(mpq_matrix[i][j], mpq_matrix[i][j], mpq_part);
      }
    }
  }
}

static void gmp(const char *job) {
  mpq_set_si(mpq_sum, 0, 1);
  if (!strcmp(job, "ledger")) {
    for (int k = 0; k < ROWS; k++) {
      mpq_mul(mpq_part, mpq_rows[0][k], mpq_rows[1][k]);
      mpq_add(mpq_sum, mpq_sum, mpq_part);
    }
  } else if (!strcmp(job, "powers")) {
    mpq_set_si(mpq_sum, 1, 1);
    mpq_set_si(mpq_part, 2, 3);
    for (int k = 0; k < 200; k++)
      mpq_mul(mpq_sum, mpq_sum, mpq_part);
  } else if (!strcmp(job, "long_sums")) {
    for (int k = 0; k < LONG; k++)
      mpq_add(mpq_sum, mpq_long[0][k], mpq_long[1][k]);
  } else if (!strcmp(job, "long_products")) {
    for (int k = 0; k < LONG; k++)
      mpq_mul(mpq_sum, mpq_long[0][k], mpq_long[1][k]);
  } else if (!strncmp(job, "determinant_", strlen("determinant_"))) {
    gmp_determinant(atol(job + strlen("determinant_")));
  } else {
    for (long k = 1; k <= atol(job + strlen("harmonic_")); k++) {
      mpq_set_si(mpq_part, 1, k);
      mpq_add(mpq_sum, mpq_sum, mpq_part);
    }
  }
}

static void flint_determinant(long size) {
  for (long i = 0; i < size; i++)
    for (long j = 0; j < size; j++)
      fmpq_set_si(fmpq_matrix[i][j], numer_at(i, j), denom_at(i, j));
  fmpq_one(fmpq_sum);
  for (long first = 0; first < size; first++) {
    long place = first;
    while (place < size && fmpq_is_zero(fmpq_matrix[place][first]))
      place++;
    if (place == size) {
      fmpq_zero(fmpq_sum);
      return;
    }
    for (; place > first; place--) {
      fmpq_neg(fmpq_sum, fmpq_sum);
      for (long j = 0; j < size; j++)
        fmpq_swap(fmpq_matrix[place][j], fmpq_matrix[place - 1][j]);
    }
    fmpq_mul(fmpq_sum, fmpq_sum, fmpq_matrix[first][first]);
    for (long i = first + 1; i < size; i++) {
      fmpq_div(fmpq_factor, fmpq_matrix[i][first], fmpq_matrix[first][first]);
      for (long j = first + 1; j < size; j++) {
        fmpq_mul(fmpq_part, fmpq_factor, fmpq_matrix[first][j]);
        fmpq_sub(fmpq_matrix[i][j], fmpq_matrix[i][j], fmpq_part);
      }
    }
  }
}

static void flint(const char *job) {
  fmpq_zero(fmpq_sum);
  if (!strcmp(job, "ledger")) {
    for (int k = 0; k < ROWS; k++) {
      fmpq_mul(fmpq_part, fmpq_rows[0][k], fmpq_rows[1][k]);
      fmpq_add(fmpq_sum, fmpq_sum, fmpq_part);
    }
  } else if (!strcmp(job, "powers")) {
    fmpq_one(fmpq_sum);
    fmpq_set_si(fmpq_part, 2, 3);
    for (int k = 0; k < 200; k++)
      fmpq_mul(fmpq_sum, fmpq_sum, fmpq_part);
  } else if (!strcmp(job, "long_sums")) {
    for (int k = 0; k < LONG; k++)
      fmpq_add(fmpq_sum, fmpq_long[0][k], fmpq_long[1][k]);
  } else if (!strcmp(job, "long_products")) {
    for (int k = 0; k < LONG; k++)
      fmpq_mul(fmpq_sum, fmpq_long[0][k], fmpq_long[1][k]);
  } else if (!strncmp(job, "determinant_", strlen("determinant_"))) {
    flint_determinant(atol(job + strlen("determinant_")));
  } else {
    for (long k = 1; k <= atol(job + strlen("harmonic_")); k++) {
      fmpq_set_si(fmpq_part, 1, k);
      fmpq_add(fmpq_sum, fmpq_sum, fmpq_part);
    }
  }
}

/* Does a job once. The numbers that the jobs begin with are made by the first call. */
void peers_do(const char *job, int is_gmp) {
  static int is_ready;
  if (!is_ready)
    set_up();
  is_ready = 1;
  is_gmp ? gmp(job) : flint(job);
}

/* The result of the last job, as a text that stays until the next call. */
const char *peers_result(int is_gmp) {
  static char *text;
  free(text);
  text = is_gmp ? mpq_get_str(NULL, 10, mpq_sum) : fmpq_get_str(NULL, 10, fmpq_sum);
  return text;
}
