// Every habit as it was exercised: venue-deeds.tsv explains the book's alarms and counts the crossings.
#pragma once
#include "../common/sheet.hpp"
#include "order.hpp"

class Deeds {
  public:
    Deeds() : sheet("deed order_id clordid detail") {}
    void note(const std::string &deed, const Order &order, const std::string &clordid, const std::string &detail = "") {
        note(deed, order.id, clordid, detail);
    }
    void note(const std::string &deed, const std::string &id, const std::string &clordid, const std::string &detail) {
        sheet.row({deed, id, clordid, detail});
        count++;
    }
    void write(const std::string &path) const { sheet.write(path); }
    long count = 0;

  private:
    Sheet sheet;
};
