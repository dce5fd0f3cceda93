#!/usr/bin/env bash
# Makes the headers that the packages' own builds would make, as far as listings.py needs them. Use: tables/prepare.sh SOURCES
set -eu
cd "$1"
if cd musl-*/ 2> /dev/null; then
    mkdir -p made/bits
    sed -f tools/mkalltypes.sed arch/arm/bits/alltypes.h.in include/alltypes.h.in > made/bits/alltypes.h
    { cat arch/arm/bits/syscall.h.in; sed -n -e s/__NR_/SYS_/p arch/arm/bits/syscall.h.in; } > made/bits/syscall.h
    echo '#define VERSION "1"' > made/version.h
    cd ..
fi
if cd lwip-*/ 2> /dev/null; then
    # no operating system, and the protocols of a small device
    mkdir -p made/arch
    printf '%s\n' '#define NO_SYS 1' '#define LWIP_SOCKET 0' '#define LWIP_NETCONN 0' '#define LWIP_IPV6 1' '#define LWIP_DHCP 1' '#define LWIP_AUTOIP 1' '#define LWIP_IGMP 1' \
        '#define LWIP_DNS 1' '#define PPP_SUPPORT 1' '#define PPPOS_SUPPORT 1' '#define PAP_SUPPORT 1' '#define CHAP_SUPPORT 1' '#define SYS_LIGHTWEIGHT_PROT 0' '#define MEM_ALIGNMENT 4' > made/lwipopts.h
    printf '%s\n' '#include <stdio.h>' '#include <stdlib.h>' '#define LWIP_PLATFORM_DIAG(x)' '#define LWIP_PLATFORM_ASSERT(x) abort()' '#define LWIP_RAND() ((unsigned)rand())' > made/arch/cc.h
    cd ..
fi
if cd expat-*/ 2> /dev/null; then
    mkdir -p made
    : > made/expat_config.h
    cd ..
fi
if cd speex-*/ 2> /dev/null; then
    mkdir -p made
    printf '%s\n' 'typedef short spx_int16_t;' 'typedef unsigned short spx_uint16_t;' 'typedef int spx_int32_t;' 'typedef unsigned int spx_uint32_t;' > made/speex_config_types.h
    cd ..
fi
