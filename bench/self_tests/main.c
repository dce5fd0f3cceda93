/* Runs the self tests of mbedtls' algorithms one after the other, and prints what each returns. */
#include <stdio.h>

#include "mbedtls/aes.h"
#include "mbedtls/base64.h"
#include "mbedtls/bignum.h"
#include "mbedtls/camellia.h"
#include "mbedtls/chacha20.h"
#include "mbedtls/des.h"
#include "mbedtls/gcm.h"
#include "mbedtls/md5.h"
#include "mbedtls/poly1305.h"
#include "mbedtls/ripemd160.h"
#include "mbedtls/sha1.h"
#include "mbedtls/sha256.h"
#include "mbedtls/sha512.h"

#define RUN(name) printf(#name " %d\n", mbedtls_##name##_self_test(1))

extern void _start(void);
extern int __stack;
__attribute__((section(".vectors"), used)) void *vectors[] = {&__stack, (void *)_start};

int main(void)
{
    RUN(aes);
    RUN(base64);
    RUN(mpi);
    RUN(camellia);
    RUN(chacha20);
    RUN(des);
    RUN(gcm);
    RUN(md5);
    RUN(poly1305);
    RUN(ripemd160);
    RUN(sha1);
    RUN(sha256);
    RUN(sha512);
    return 0;
}
