/* The tables of the libraries. */
#include "engines.h"

#ifdef WITH_BASE
/* The base has the calls of engine.h, under other names. */
extern __typeof__(engine_translate) base_engine_translate;
extern __typeof__(engine_open) base_engine_open;
extern __typeof__(engine_check) base_engine_check;
extern __typeof__(engine_deliver) base_engine_deliver;
extern __typeof__(engine_save) base_engine_save __attribute__((weak));
extern __typeof__(engine_restore) base_engine_restore __attribute__((weak));
extern __typeof__(engine_check_code) base_engine_check_code __attribute__((weak));
extern __typeof__(engine_deliver_code) base_engine_deliver_code __attribute__((weak));
#endif

const struct engine engines[ENGINES] = {
    { "", engine_translate, engine_open, engine_check, engine_deliver, engine_save, engine_restore, engine_check_code,
      engine_deliver_code },
#ifdef WITH_BASE
    { "base_", base_engine_translate, base_engine_open, base_engine_check, base_engine_deliver, base_engine_save,
      base_engine_restore, base_engine_check_code, base_engine_deliver_code },
#endif
};
