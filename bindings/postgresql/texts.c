/* Questions about texts before they are cast, and addresses that are mapped into IPv6. */
#include "images.h"

PG_FUNCTION_INFO_V1(ipset_is_address);
PG_FUNCTION_INFO_V1(ipset_is_entry);
PG_FUNCTION_INFO_V1(ipset_unmap);

/* Whether the text is an address. Then it can be cast to inet, and is the same address there. */
Datum
ipset_is_address(PG_FUNCTION_ARGS)
{
    text *given = PG_GETARG_TEXT_PP(0);
    uint8 octets[16];
    PG_RETURN_BOOL(sql_parse_address(VARDATA_ANY(given), VARSIZE_ANY_EXHDR(given), octets) > 0);
}

/* Whether the text is one entry of a set. Then it can be cast to ipset. */
Datum
ipset_is_entry(PG_FUNCTION_ARGS)
{
    text *given = PG_GETARG_TEXT_PP(0);
    ipnet_status status = sql_check_entry(VARDATA_ANY(given), VARSIZE_ANY_EXHDR(given));
    if (status != IPNET_OK && status != IPNET_BAD_LINE)
        report_status(status);
    PG_RETURN_BOOL(status == IPNET_OK);
}

/* The IPv4 address or network that is mapped into IPv6 (::ffff:0:0/96). Any other value is returned as it is. */
Datum
ipset_unmap(PG_FUNCTION_ARGS)
{
    inet *address = PG_GETARG_INET_PP(0), *unmapped;
    if (inet_octets_len(address) == 4 || ip_bits(address) < 96 || !sql_is_mapped(ip_addr(address)))
        PG_RETURN_INET_P(address);
    unmapped = palloc0(sizeof(inet));
    ip_family(unmapped) = PGSQL_AF_INET;
    ip_bits(unmapped) = ip_bits(address) - 96;
    memcpy(ip_addr(unmapped), ip_addr(address) + 12, 4);
    SET_INET_VARSIZE(unmapped);
    PG_RETURN_INET_P(unmapped);
}
