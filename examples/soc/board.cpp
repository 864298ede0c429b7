// The board: the system as Verilator models it, its clock and its bus.
#include "board.h"

#include <cstdio>

#include "Vsoc.h"
#include "verilated.h"

static Vsoc *soc;
static int errors;

static void clock_edge() {
    soc->PCLK = 0;
    soc->eval();
    soc->PCLK = 1;
    soc->eval();
}

// An APB transfer: a setup cycle, and access cycles until PREADY.
static uint32_t transfer(uint32_t address, bool write, uint32_t data) {
    soc->PSEL = 1;
    soc->PENABLE = 0;
    soc->PADDR = address;
    soc->PWRITE = write;
    soc->PWDATA = data;
    clock_edge();
    soc->PENABLE = 1;
    bool ready;
    uint32_t read;
    do {
        soc->PCLK = 0;
        soc->eval();
        ready = soc->PREADY;
        read = soc->PRDATA;
        if (ready && soc->PSLVERR) errors++;
        clock_edge();
    } while (!ready);
    soc->PSEL = 0;
    soc->PENABLE = 0;
    soc->eval();
    return read;
}

uint32_t board_read(uint32_t address) { return transfer(address, false, 0); }

void board_write(uint32_t address, uint32_t data) { transfer(address, true, data); }

int board_errors(void) { return errors; }

int board_interrupts(void) { return soc->irq; }

long board_sleep(void) {
    long clocks = 0;
    while (!soc->irq && clocks < 100000) {
        clock_edge();
        clocks++;
    }
    return clocks;
}

int main() {
    soc = new Vsoc;
    soc->rxd = 1;
    soc->PRESETn = 0;
    clock_edge();
    soc->PRESETn = 1;
    clock_edge();
    const int wrong = firmware();
    std::puts(wrong ? "failed" : "passed");
    delete soc;
    return wrong;
}
