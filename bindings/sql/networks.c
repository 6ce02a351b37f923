/* Networks and addresses for the extensions: see networks.h. */
#include "networks.h"

#include <string.h>

#include "ipnet.h"

size_t sql_octets_len(const SqlNetwork *network)
{
    return network->bytes[0] == 0 ? 4 : 16;
}

size_t sql_network_len(const SqlNetwork *network)
{
    return sql_octets_len(network) + 2;
}

uint8_t sql_prefix_len(const SqlNetwork *network)
{
    return network->bytes[1 + sql_octets_len(network)];
}

SqlNetwork sql_network(const uint8_t *octets, size_t octets_len, uint8_t prefix_len)
{
    SqlNetwork network = {{octets_len == 4 ? 0 : 1}};
    size_t whole = prefix_len / 8;
    memcpy(network.bytes + 1, octets, whole);
    if (prefix_len % 8 != 0)
        network.bytes[1 + whole] = octets[whole] & (uint8_t)(0xff00 >> prefix_len % 8);
    network.bytes[1 + octets_len] = prefix_len;
    return network;
}

bool sql_parse_network(const char *text, size_t len, SqlNetwork *network)
{
    char whole[IPNET_MAX_TEXT + 5];
    uint8_t bytes[IPNET_MAX_BYTES];
    size_t count;
    if (len > IPNET_MAX_TEXT + 5 - 4)
        return false;
    memcpy(whole, text, len);
    if (memchr(text, '/', len) == NULL) {
        const char *full = memchr(text, ':', len) == NULL ? "/32" : "/128";
        memcpy(whole + len, full, strlen(full));
        len += strlen(full);
    }
    if (ipnet_parse(whole, len, bytes, sizeof bytes, &count) != IPNET_OK)
        return false;
    *network = sql_network(bytes + 1, count - 2, bytes[count - 1]);
    return true;
}

size_t sql_parse_address(const char *text, size_t len, uint8_t *octets)
{
    SqlNetwork network;
    if (memchr(text, '/', len) != NULL || !sql_parse_network(text, len, &network))
        return 0;
    memcpy(octets, network.bytes + 1, sql_octets_len(&network));
    return sql_octets_len(&network);
}

bool sql_is_mapped(const uint8_t *octets)
{
    static const uint8_t start[12] = {0, 0, 0, 0, 0, 0, 0, 0, 0, 0, 0xff, 0xff};
    return memcmp(octets, start, sizeof start) == 0;
}

void sql_print_count(const uint64_t numbers[3], char text[SQL_COUNT_TEXT])
{
    uint32_t words[5] = {(uint32_t)numbers[0], (uint32_t)(numbers[0] >> 32), (uint32_t)numbers[1],
                         (uint32_t)(numbers[1] >> 32), (uint32_t)numbers[2]};
    char digits[SQL_COUNT_TEXT];
    size_t count = 0, i;
    bool is_zero;
    do {
        uint64_t rest = 0;
        is_zero = true;
        for (i = 5; i-- > 0;) {
            rest = rest << 32 | words[i];
            words[i] = (uint32_t)(rest / 10);
            rest %= 10;
            is_zero = is_zero && words[i] == 0;
        }
        digits[count++] = (char)('0' + rest);
    } while (!is_zero);
    for (i = 0; i < count; i++)
        text[i] = digits[count - 1 - i];
    text[count] = '\0';
}
