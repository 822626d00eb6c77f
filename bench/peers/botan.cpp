// Botan's CMAC over SM4, as the two C functions that src/peer.rs asks of a peer. For Botan 3 and 2.

#include <botan/mac.h>
#include <botan/version.h>
#include <cstddef>
#include <cstdint>
#include <string>

// As "Botan 2.19.3".
extern "C" const char *peer_name(void) {
    static const std::string name = "Botan " + Botan::short_version_string();
    return name.c_str();
}

// 1 for a tag made, 0 for none. Botan's object is made at the first call and kept; the key is set with each call. No exception may
// reach the caller, who is not written in C++.
extern "C" int peer_cmac(const uint8_t *key, const uint8_t *message, size_t length, uint8_t *tag) {
    try {
        static const auto mac = Botan::MessageAuthenticationCode::create_or_throw("CMAC(SM4)");
        mac->set_key(key, 16);
        mac->update(message, length);
        mac->final(tag);
        return 1;
    } catch (...) {
        return 0;
    }
}
