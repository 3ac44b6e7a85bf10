#pragma once
typedef unsigned char uint8_t;
typedef unsigned short uint16_t;
typedef unsigned int uint32_t;
typedef unsigned long uint64_t;
typedef short int16_t;
typedef int int32_t;
typedef long int64_t;
#define UINT64_MAX 0xffffffffffffffffUL
