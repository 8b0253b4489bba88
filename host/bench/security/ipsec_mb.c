// 128-NEA1, 128-NIA1, 128-NEA3 and 128-NIA3 by libipsec-mb's calls for one buffer, for ipsec_mb.rs.
#include <intel-ipsec-mb.h>
#include <stdlib.h>

static IMB_MGR *manager;

// The best the computer has; made once, by the first key.
void streams_start(void) {
    if (manager) return;
    manager = alloc_mb_mgr(0);
    if (!manager) abort();
    init_mb_mgr_auto(manager, NULL);
}

size_t snow_size(void) { return IMB_SNOW3G_KEY_SCHED_SIZE(manager); }

void snow_schedule(const uint8_t *key, void *schedule) { IMB_SNOW3G_INIT_KEY_SCHED(manager, key, schedule); }

void snow_cipher(const void *schedule, uint32_t count, uint8_t bearer, uint8_t direction, uint8_t *m, size_t n) {
    uint8_t iv[16];
    snow3g_f8_iv_gen(count, bearer, direction, iv);
    IMB_SNOW3G_F8_1_BUFFER(manager, schedule, iv, m, m, n);
}

void snow_code(const void *schedule, uint32_t count, uint8_t bearer, uint8_t direction, const uint8_t *m, size_t n, uint8_t *code) {
    uint8_t iv[16];
    snow3g_f9_iv_gen(count, (uint32_t)bearer << 27, direction, iv);
    IMB_SNOW3G_F9_1_BUFFER(manager, schedule, iv, m, n * 8, code);
}

void zuc_cipher(const uint8_t *key, uint32_t count, uint8_t bearer, uint8_t direction, uint8_t *m, size_t n) {
    uint8_t iv[16];
    zuc_eea3_iv_gen(count, bearer, direction, iv);
    IMB_ZUC_EEA3_1_BUFFER(manager, key, iv, m, m, n);
}

void zuc_code(const uint8_t *key, uint32_t count, uint8_t bearer, uint8_t direction, const uint8_t *m, size_t n, uint32_t *code) {
    uint8_t iv[16];
    zuc_eia3_iv_gen(count, bearer, direction, iv);
    IMB_ZUC_EIA3_1_BUFFER(manager, key, iv, m, n * 8, code);
}
