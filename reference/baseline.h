// The whole job in plain C: each answers as the function of the library that has its name after aspenflick_.
#include "aspenflick.h"

aspenflick_record baseline_phases(aspenflick_report r, const uint8_t *mask, size_t mask_len, uint8_t ranks,
                                  const uint16_t *offsets, size_t offsets_len, uint16_t *out, size_t out_len);
aspenflick_record baseline_weights(aspenflick_report r, const uint8_t *mask, size_t mask_len, uint8_t ranks,
                                   const uint16_t *offsets, size_t offsets_len, int16_t *out, size_t out_len);
aspenflick_record baseline_panel_phases(aspenflick_panel_report r, const uint8_t *mask, size_t mask_len, uint8_t ranks,
                                        const uint16_t *offsets, size_t offsets_len, uint16_t *out, size_t out_len);
aspenflick_record baseline_panel_weights(aspenflick_panel_report r, const uint8_t *mask, size_t mask_len, uint8_t ranks,
                                         const uint16_t *offsets, size_t offsets_len, int16_t *out, size_t out_len);
