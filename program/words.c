/* What registers and journal entries say, in words. */
#include "program.h"

/* The time that so many cycles of a clock take, rounded down. */
uint64_t nanoseconds(uint32_t cycles, uint32_t hclk)
{
    return hclk == 0 ? 0 : UINT64_C(1000000000) * cycles / hclk;
}

struct text microseconds(uint64_t nanoseconds)
{
    return text_of("%llu.%03u us", (unsigned long long)nanoseconds / 1000,
                   (unsigned)(nanoseconds % 1000));
}

const char *supply(uint32_t value)
{
    return value == RIKKOVAN_HPSYS_SUPPLY_S ? "S" : "D";
}

const char *lpsys_supply(uint32_t value)
{
    return value == RIKKOVAN_LPSYS_SUPPLY_S ? "S" : "D";
}

static const char *core_source(unsigned select)
{
    switch (select) {
    case RIKKOVAN_CORE_HRC48: return "HRC48";
    case RIKKOVAN_CORE_HXT48: return "HXT48";
    case RIKKOVAN_CORE_DBL96: return "DBL96";
    default: return "DLL1";
    }
}

const char *flash_source(unsigned select)
{
    switch (select) {
    case RIKKOVAN_MPI_PERIPHERAL: return "peripheral";
    case RIKKOVAN_MPI_DLL1: return "DLL1";
    case RIKKOVAN_MPI_DLL2: return "DLL2";
    default: return "reserved";
    }
}

static struct text dll1_words(unsigned on, unsigned half, unsigned stage)
{
    if (on == 0)
        return text_of("DLL1 off");
    return text_of("DLL1 on, stage %u%s", stage, half == 0 ? "" : ", halved");
}

static const char *bandgap(unsigned enabled, unsigned vddpsw)
{
    if (enabled == 0)
        return vddpsw == 0 ? "bandgap and vddpsw off" : "vddpsw on";
    return vddpsw == 0 ? "bandgap on" : "bandgap and vddpsw on";
}

/* Of the four fields each has half a byte. */
static struct text timing_words(const char *name, unsigned b, unsigned c)
{
    return text_of("%s rm %u, ra %u, wa %u, rom %u", name, b >> 4, b & 15, c >> 4, c & 15);
}

/* The registers that changes and LPSYS requests store have words of their own. */
static struct text store_words(uint32_t number, uint32_t value)
{
    unsigned a = rikkovan_value_a(value), b = rikkovan_value_b(value), c = rikkovan_value_c(value);

    switch (number) {
    case RIKKOVAN_REG_SYSCLK: return text_of("core %s", core_source(c));
    case RIKKOVAN_REG_HPSYS_CFGR: return text_of("hdiv %u, pdiv1 %u, pdiv2 %u", a, b, c);
    case RIKKOVAN_REG_DLL1: return dll1_words(a, b, c);
    case RIKKOVAN_REG_FLASH: return text_of("flash %s, %s", flash_source(b), flash_source(c));
    case RIKKOVAN_REG_HPBG: return text_of("%s", bandgap(b, c));
    case RIKKOVAN_REG_HPSYS_SUPPLY: return text_of("supply %s", supply(value));
    case RIKKOVAN_REG_BUCK_VOUT: return text_of("buck of S %u", c);
    case RIKKOVAN_REG_HPSYS_VOUT: return text_of("ldo of S %u", c);
    case RIKKOVAN_REG_SET_VOUT_M: return text_of("buck of D %u", c);
    case RIKKOVAN_REG_HPSYS_LDO: return text_of("ldo of D %u", c);
    case RIKKOVAN_REG_HPSYS_TIMING: return timing_words("timing", b, c);
    case RIKKOVAN_REG_LPSYS_CFGR: return text_of("LPSYS hdiv1 %u, pdiv1 %u, pdiv2 %u", a, b, c);
    case RIKKOVAN_REG_LPSYS_SUPPLY: return text_of("LPSYS supply %s", lpsys_supply(value));
    case RIKKOVAN_REG_LPSYS_VOUT: return text_of("LPSYS vout %u", c);
    case RIKKOVAN_REG_LPSYS_LDO: return text_of("LPSYS ldo %u", c);
    case RIKKOVAN_REG_LPSYS_TIMING: return timing_words("LPSYS timing", b, c);
    default: return text_of("register %u %06lX", (unsigned)number, (unsigned long)value);
    }
}

static struct text delay_words(uint32_t cycles, uint32_t hclk)
{
    return text_of("delay %lu cycles, %s", (unsigned long)cycles,
                   microseconds(nanoseconds(cycles, hclk)).line);
}

static struct text wait_words(uint32_t kind, uint32_t taken)
{
    if (kind == RIKKOVAN_WAIT_DLL1)
        return text_of("wait for DLL1, answers: %u", (unsigned)taken);
    return text_of("wait of kind %u, answers: %u", (unsigned)kind, (unsigned)taken);
}

struct text entry_words(uint32_t entry, uint32_t hclk)
{
    if (rikkovan_is_delay(entry))
        return delay_words(rikkovan_entry_value(entry), hclk);
    if (rikkovan_is_wait(entry))
        return wait_words(rikkovan_wait_kind(entry), rikkovan_wait_taken(entry));
    return store_words(rikkovan_entry_number(entry), rikkovan_entry_value(entry));
}
