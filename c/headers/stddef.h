/* The kit's compiler for x86-64 comes without headers. Those of this folder declare what c/ uses, for tools/ctest on other machines. */
#pragma once
typedef __SIZE_TYPE__ size_t;
#define offsetof(type, member) __builtin_offsetof(type, member)
