/*
 * A plain verifier of LMS and HSS in C over OpenSSL's SHA-256 (RFC 8554, sections 4.6, 5.4.2 and 6.3), written for the
 * comparison of bench/library.sh alone. Its hashes are counted.
 */
#ifndef PLAIN_H
#define PLAIN_H

#include <stdbool.h>
#include <stddef.h>
#include <stdint.h>

extern long plain_hashes;

bool plain_lms_verify(const uint8_t key[56], const uint8_t *text, size_t text_length, const uint8_t *signature,
                      size_t signature_length);

bool plain_hss_verify(const uint8_t key[60], const uint8_t *text, size_t text_length, const uint8_t *signature,
                      size_t signature_length);

#endif
