// The venue's own count, as it is written at the end.
#include "../common/amount.hpp"
#include "venue.hpp"

void Venue::write_sheets(const std::string &dir) const {
    Sheet sheet("order_id first_clordid last_clordid symbol side ordered filled status");
    for (const auto &order : orders)
        sheet.row({order->id, order->first, order->current, order->symbol, std::string(1, order->side),
                   show_amount(order->quantity, QTY), show_amount(order->filled, QTY), std::string(1, order->status)});
    Sheet each("order_id clordid_reported qty price exec_id");
    for (const Fill &fill : fills)
        each.row({fill.order_id, fill.clordid, show_amount(fill.quantity, QTY), show_amount(fill.price, PRICE),
                  fill.exec_id});
    deeds.write(dir + "/venue-deeds.tsv");
    each.write(dir + "/venue-fills.tsv");
    sheet.write(dir + "/venue.tsv");
}

std::string Venue::progress() const {
    size_t waiting = 0;
    for (const auto &order : orders)
        waiting += order->waiting.size();
    return "orders " + std::to_string(orders.size()) + "\nfills " + std::to_string(fills.size()) + "\nsent " +
           std::to_string(post.sent) + "\nheld " + std::to_string(post.held()) + "\nwaiting " +
           std::to_string(waiting) + "\ndeeds " + std::to_string(deeds.count) + "\nsettled " + std::to_string(settled) +
           "\n";
}
