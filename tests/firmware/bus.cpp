// The bus of examples/uart.v, as Verilator models it, for the firmware beside this file.
#include <cstdint>
#include <cstring>

#include "Vuart.h"
#include "verilated.h"

static Vuart *model;

static void clock_edge() {
    model->PCLK = 0;
    model->eval();
    model->PCLK = 1;
    model->eval();
}

static uint32_t transfer(uint32_t address, bool write, uint32_t data, int *error) {
    model->PSEL = 1;
    model->PENABLE = 0;
    model->PADDR = address;
    model->PWRITE = write;
    model->PWDATA = data;
    clock_edge();
    model->PENABLE = 1;
    model->PCLK = 0;
    model->eval();
    const uint32_t read = model->PRDATA;
    *error = model->PSLVERR;
    clock_edge();
    model->PSEL = 0;
    model->PENABLE = 0;
    return read;
}

extern "C" {
uint32_t bus_read(uint32_t offset, int *error) { return transfer(offset, false, 0, error); }

void bus_write(uint32_t offset, uint32_t data) {
    int error;
    transfer(offset, true, data, &error);
}

uint32_t pin(const char *name) {
    if (!std::strcmp(name, "parity")) return model->out__024ctrl__024parity;
    if (!std::strcmp(name, "stop2")) return model->out__024ctrl__024stop2;
    if (!std::strcmp(name, "loopback")) return model->out__024ctrl__024loopback;
    if (!std::strcmp(name, "div0")) return model->out__024baud__0240__024div;
    if (!std::strcmp(name, "div1")) return model->out__024baud__0241__024div;
    if (!std::strcmp(name, "tx")) return model->out__024tx__024data;
    if (!std::strcmp(name, "rx")) return model->in__024rx__024data;
    return ~0u;
}

int firmware(void);
}

int main() {
    model = new Vuart;
    model->PRESETn = 0;
    model->in__024rx__024data = 0xa7;
    clock_edge();
    model->PRESETn = 1;
    clock_edge();
    const int wrong = firmware();
    delete model;
    return wrong != 0;
}
