/* SPDX-License-Identifier: MIT OR Apache-2.0 */
/* The calls of the headers for files as functions of libgix_index.so, with the same names. They are for callers in
 * other languages, such as python/gix_index.py. A caller in C has functions of its own by including a header.
 *
 * c/install compiles this file, and gix_index.map lists the names that the library exports. */
#define _POSIX_C_SOURCE 200809L
#define GIX_INDEX_API
#include "gix_index_file.h"
