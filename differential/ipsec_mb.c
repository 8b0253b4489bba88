// Answers the lines of program `vectors` that begin with nea1, nia1, nea3 and nia3 by libipsec-mb's single-buffer calls.
// What the library refuses (no octets; for ZUC above 8,188 of them) is answered "refused".
#include <intel-ipsec-mb.h>
#include <stdio.h>
#include <stdlib.h>
#include <string.h>

static char line[1 << 18];
static uint8_t from[1 << 17], to[1 << 17];

static size_t decode(const char *text, uint8_t *out) {
    size_t n = 0;
    if (text[0] == '-') return 0;
    for (; text[2 * n]; n++) sscanf(text + 2 * n, "%2hhx", out + n);
    return n;
}

static void show(const char *name, const uint8_t *octets, size_t n) {
    printf("%s ", name);
    for (size_t i = 0; i < n; i++) printf("%02x", octets[i]);
    printf("\n");
}

int main(void) {
    IMB_MGR *manager = alloc_mb_mgr(0);
    init_mb_mgr_auto(manager, NULL);
    snow3g_key_schedule_t *schedule = malloc(IMB_SNOW3G_KEY_SCHED_SIZE(manager));
    while (fgets(line, sizeof line, stdin)) {
        char *kind = strtok(line, " \n"), *name = strtok(NULL, " \n");
        uint8_t key[16], iv[16];
        uint32_t code = 0;
        decode(strtok(NULL, " \n"), key);
        uint32_t count = strtoul(strtok(NULL, " \n"), NULL, 16);
        uint8_t bearer = strtoul(strtok(NULL, " \n"), NULL, 16);
        uint8_t direction = atoi(strtok(NULL, " \n"));
        size_t n = decode(strtok(NULL, " \n"), from);
        int snow = kind[3] == '1', cipher = kind[1] == 'e';
        imb_get_errno(manager);
        if (n == 0 || (!snow && n > 8188)) {
            printf("%s refused\n", name);
            continue;
        }
        if (snow) {
            IMB_SNOW3G_INIT_KEY_SCHED(manager, key, schedule);
            if (cipher) {
                snow3g_f8_iv_gen(count, bearer, direction, iv);
                IMB_SNOW3G_F8_1_BUFFER(manager, schedule, iv, from, to, n);
            } else {
                snow3g_f9_iv_gen(count, (uint32_t)bearer << 27, direction, iv);
                IMB_SNOW3G_F9_1_BUFFER(manager, schedule, iv, from, n * 8, &code);
            }
        } else if (cipher) {
            zuc_eea3_iv_gen(count, bearer, direction, iv);
            IMB_ZUC_EEA3_1_BUFFER(manager, key, iv, from, to, n);
        } else {
            zuc_eia3_iv_gen(count, bearer, direction, iv);
            IMB_ZUC_EIA3_1_BUFFER(manager, key, iv, from, n * 8, &code);
        }
        if (imb_get_errno(manager) != 0) {
            fprintf(stderr, "%s: %s\n", name, imb_get_strerror(imb_get_errno(manager)));
            return 1;
        }
        show(name, cipher ? to : (const uint8_t *)&code, cipher ? n : 4);
    }
    free_mb_mgr(manager);
    return 0;
}
