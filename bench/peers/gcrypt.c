// libgcrypt's CMAC over SM4, as the two C functions that src/peer.rs asks of a peer. libgcrypt has SM4 since version 1.9.

#include <gcrypt.h>
#include <stddef.h>
#include <stdint.h>
#include <stdio.h>

// As "libgcrypt 1.10.1".
const char *peer_name(void) {
    static char name[32];
    snprintf(name, sizeof name, "libgcrypt %s", gcry_check_version(NULL));
    return name;
}

// The handle that is opened at the first call and kept; NULL where that fails.
static gcry_mac_hd_t opened(void) {
    static gcry_mac_hd_t mac = NULL;
    if (mac == NULL) {
        gcry_check_version(NULL); // prepares the library, too
        gcry_control(GCRYCTL_DISABLE_SECMEM, 0);
        gcry_control(GCRYCTL_INITIALIZATION_FINISHED, 0);
        gcry_mac_open(&mac, GCRY_MAC_CMAC_SM4, 0, NULL);
    }
    return mac;
}

// 1 for a tag made, 0 for none. The key is set with each call; the reset is what allows a message after one whose tag was read.
int peer_cmac(const uint8_t *key, const uint8_t *message, size_t length, uint8_t *tag) {
    gcry_mac_hd_t mac = opened();
    size_t written = 16;
    return mac != NULL && gcry_mac_setkey(mac, key, 16) == 0 && gcry_mac_reset(mac) == 0 &&
           gcry_mac_write(mac, message, length) == 0 && gcry_mac_read(mac, tag, &written) == 0 && written == 16;
}
