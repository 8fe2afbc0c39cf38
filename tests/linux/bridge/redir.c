/* SPDX-License-Identifier: MIT OR Apache-2.0 */
#include "bridge.h"
#include <stdlib.h>
#include <string.h>
#include "emulator/block.h"

#define ADDRESS_RECOVERY 16u

struct usbredirparser *parser;

/* ---- the device, as the guest is to see it */

static void reset_toggles(int interface)
{
    for (unsigned i = 0; i < ENDPOINTS; i++)
        if (interface < 0 || endpoints[i].interface == (unsigned)interface)
            endpoints[i].toggle = 0;
}

static void describe_interface(struct usb_redir_interface_info_header *info, const uint8_t *d)
{
    unsigned n = info->interface_count++;

    info->interface[n] = d[2];
    info->interface_class[n] = d[5];
    info->interface_subclass[n] = d[6];
    info->interface_protocol[n] = d[7];
}

static void describe_endpoint(struct usb_redir_ep_info_header *info, const uint8_t *d, unsigned interface)
{
    unsigned i = INDEX(d[2]), maximum = d[4] | (unsigned)d[5] << 8;

    info->type[i] = d[3] & 3;
    info->interval[i] = d[6];
    info->interface[i] = (uint8_t)interface;
    info->max_packet_size[i] = (uint16_t)maximum;
    endpoints[i].type = d[3] & 3;
    endpoints[i].interval = d[6];
    endpoints[i].maximum = maximum & 0x7FF;
    endpoints[i].interface = interface;
}

/* The interfaces and endpoints of the settings in use. */
static void send_info(void)
{
    struct usb_redir_interface_info_header interfaces = {0};
    struct usb_redir_ep_info_header info = {0};
    unsigned interface = 0;
    int used = 0;

    memset(info.type, usb_redir_type_invalid, sizeof info.type);
    info.type[0] = info.type[16] = usb_redir_type_control;
    info.max_packet_size[0] = info.max_packet_size[16] = (uint16_t)ep0_maximum;
    for (unsigned i = 1; i < ENDPOINTS; i++)
        if (i != 16)
            endpoints[i].type = usb_redir_type_invalid;
    for (unsigned at = 0; at + 2 <= attached.length && attached.configuration[at] >= 2;) {
        const uint8_t *d = attached.configuration + at;

        at += d[0];
        if (d[1] == 4) {
            interface = d[2];
            used = attached.alternates[interface & 31] == d[3];
            if (used)
                describe_interface(&interfaces, d);
        } else if (d[1] == 5 && used) {
            describe_endpoint(&info, d, interface);
        }
    }
    usbredirparser_send_interface_info(parser, &interfaces);
    usbredirparser_send_ep_info(parser, &info);
}

void connect_device(void)
{
    const uint8_t *d = attached.device;
    struct usb_redir_device_connect_header h = {
        .speed = usb_redir_speed_high,
        .device_class = d[4],
        .device_subclass = d[5],
        .device_protocol = d[6],
        .vendor_id = (uint16_t)(d[8] | d[9] << 8),
        .product_id = (uint16_t)(d[10] | d[11] << 8),
        .device_version_bcd = (uint16_t)(d[12] | d[13] << 8),
    };

    send_info();
    usbredirparser_send_device_connect(parser, &h);
    tell("connected to the guest");
}

void disconnect_device(void)
{
    usbredirparser_send_device_disconnect(parser);
}

/* ---- what came of a request */

static void reply_control(struct request *r, int status)
{
    int in = (r->setup[0] & 0x80) != 0 && status == usb_redir_success && transfer.moved > 0;
    struct usb_redir_control_packet_header h = {
        .endpoint = r->setup[0] & 0x80,
        .request = r->setup[1],
        .requesttype = r->setup[0],
        .status = (uint8_t)status,
        .value = (uint16_t)(r->setup[2] | r->setup[3] << 8),
        .index = (uint16_t)(r->setup[4] | r->setup[5] << 8),
        .length = (uint16_t)(status == usb_redir_success ? transfer.moved : 0),
    };

    if (status == usb_redir_success && r->setup[0] == 2 && r->setup[1] == 1) /* CLEAR_FEATURE of an endpoint */
        endpoints[INDEX(r->setup[4])].toggle = 0;
    usbredirparser_send_control_packet(parser, r->id, &h, in ? transfer.data : NULL, in ? (int)transfer.moved : 0);
}

static void reply_configuration(struct request *r, int status)
{
    struct usb_redir_configuration_status_header h = {.status = (uint8_t)status};

    if (r->kind == SET_CONFIGURATION && status == usb_redir_success) {
        attached.value = r->setup[2];
        memset(attached.alternates, 0, sizeof attached.alternates);
        reset_toggles(-1);
        send_info();
        probe_disabled();
    }
    h.configuration = (uint8_t)(r->kind == SET_CONFIGURATION ? attached.value : transfer.data[0]);
    usbredirparser_send_configuration_status(parser, r->id, &h);
}

static void reply_alternate(struct request *r, int status)
{
    struct usb_redir_alt_setting_status_header h = {.status = (uint8_t)status, .interface = r->setup[4]};
    unsigned *alternate = &attached.alternates[r->setup[4] & 31];

    if (r->kind == SET_ALT && status == usb_redir_success) {
        *alternate = r->setup[2];
        reset_toggles(r->setup[4]);
        send_info();
        probe_disabled();
    }
    h.alt = (uint8_t)(r->kind == SET_ALT ? *alternate : transfer.data[0]);
    usbredirparser_send_alt_setting_status(parser, r->id, &h);
}

static void reply(struct request *r, int status)
{
    switch (r->kind) {
    case CONTROL_PACKET:
        reply_control(r, status);
        break;
    case SET_CONFIGURATION:
    case GET_CONFIGURATION:
        reply_configuration(r, status);
        break;
    case SET_ALT:
    case GET_ALT:
        reply_alternate(r, status);
        break;
    case SET_ADDRESS:
        if (status == usb_redir_success)
            address = r->setup[2];
        quiet = ADDRESS_RECOVERY;
        break;
    default:
        break;
    }
}

static void tell_request(const struct request *r, int status)
{
    static const char *const words[] = {"done", "cancelled", "invalid", "no answer", "stalled", "timed out", "babble"};
    const uint8_t *s = r->setup;

    fprintf(bridge_log, "bridge: to %u setup %02X %02X %02X%02X %02X%02X %02X%02X: %s", address, s[0], s[1], s[3], s[2],
            s[5], s[4], s[7], s[6], words[status]);
    if (status == usb_redir_success && transfer.moved > 0) {
        fprintf(bridge_log, ", %u bytes", transfer.moved);
        for (unsigned i = 0; i < transfer.moved && i < 64 && (s[0] & 0x80); i++)
            fprintf(bridge_log, " %02X", transfer.data[i]);
    }
    putc('\n', bridge_log);
}

void request_over(int status)
{
    struct request *r = requests;
    enum kind kind = r->kind;

    tell_request(r, status);
    if (status == usb_redir_stall)
        counts.stalls++;
    reply(r, status);
    pop();
    if (attaching() && (kind == OWN || kind == SET_ADDRESS))
        attach_step(status);
}

void packet_over(unsigned i, int status)
{
    struct packet *p = endpoints[i].first;
    int in = (i & 16) != 0 && p->done > 0;

    if (endpoints[i].type == usb_redir_type_interrupt) {
        struct usb_redir_interrupt_packet_header h = {
            .endpoint = (uint8_t)ADDRESS(i), .status = (uint8_t)status, .length = (uint16_t)p->done};
        usbredirparser_send_interrupt_packet(parser, p->id, &h, NULL, 0);
    } else {
        struct usb_redir_bulk_packet_header h = {.endpoint = (uint8_t)ADDRESS(i),
                                                 .status = (uint8_t)status,
                                                 .length = (uint16_t)p->done,
                                                 .length_high = (uint16_t)(p->done >> 16)};
        usbredirparser_send_bulk_packet(parser, p->id, &h, in ? p->bytes : NULL, in ? (int)p->done : 0);
    }
    if (status == usb_redir_stall)
        counts.stalls++;
    else if (status != usb_redir_success)
        tell("endpoint %02X: %u of %u bytes, %s", ADDRESS(i), p->done, p->length,
             status == usb_redir_babble ? "babble" : "no answer");
    remove_packet(&endpoints[i], p);
}

void stream_in(unsigned i, const uint8_t *bytes, unsigned length)
{
    struct usb_redir_iso_packet_header h = {.endpoint = (uint8_t)ADDRESS(i), .length = (uint16_t)length};

    usbredirparser_send_iso_packet(parser, 0, &h, (uint8_t *)bytes, (int)length);
}

void interrupt_in(unsigned i, int status, const uint8_t *bytes, unsigned length)
{
    struct usb_redir_interrupt_packet_header h = {
        .endpoint = (uint8_t)ADDRESS(i), .status = (uint8_t)status, .length = (uint16_t)length};

    usbredirparser_send_interrupt_packet(parser, 0, &h, (uint8_t *)bytes, (int)length);
}

/* ---- what the guest asks */

static void got_hello(void *p, struct usb_redir_hello_header *h)
{
    (void)p;
    tell("hello from %s", h->version);
    attach();
}

static void got_reset(void *p)
{
    (void)p;
    push(RESET, 0, NULL);
    next_address = next_address % 127 + 1;
    push_standard(SET_ADDRESS, 0, 0, 5, next_address, 0, 0);
    for (unsigned i = 0; i < ENDPOINTS; i++)
        endpoints[i].receiving = 0;
}

static void got_set_configuration(void *p, uint64_t id, struct usb_redir_set_configuration_header *h)
{
    (void)p;
    push_standard(SET_CONFIGURATION, id, 0, 9, h->configuration, 0, 0);
}

static void got_get_configuration(void *p, uint64_t id)
{
    (void)p;
    push_standard(GET_CONFIGURATION, id, 0x80, 8, 0, 0, 1);
}

static void got_set_alternate(void *p, uint64_t id, struct usb_redir_set_alt_setting_header *h)
{
    (void)p;
    push_standard(SET_ALT, id, 1, 11, h->alt, h->interface, 0);
}

static void got_get_alternate(void *p, uint64_t id, struct usb_redir_get_alt_setting_header *h)
{
    (void)p;
    push_standard(GET_ALT, id, 0x81, 10, 0, h->interface, 1);
}

static void got_control(void *p, uint64_t id, struct usb_redir_control_packet_header *h, uint8_t *bytes, int length)
{
    uint8_t setup[8] = {h->requesttype, h->request, (uint8_t)h->value, (uint8_t)(h->value >> 8),
                        (uint8_t)h->index, (uint8_t)(h->index >> 8), (uint8_t)h->length, (uint8_t)(h->length >> 8)};
    struct request *r = push(CONTROL_PACKET, id, setup);

    (void)p;
    if (length > 0) {
        r->data = malloc((size_t)length);
        memcpy(r->data, bytes, (size_t)length);
        r->length = (unsigned)length;
    }
    usbredirparser_free_packet_data(parser, bytes);
}

static void got_bulk(void *p, uint64_t id, struct usb_redir_bulk_packet_header *h, uint8_t *bytes, int length)
{
    (void)p;
    (void)length;
    queue_packet(INDEX(h->endpoint), id, bytes, h->length | (unsigned)h->length_high << 16);
    usbredirparser_free_packet_data(parser, bytes);
}

static void got_interrupt(void *p, uint64_t id, struct usb_redir_interrupt_packet_header *h, uint8_t *bytes, int length)
{
    (void)p;
    queue_packet(INDEX(h->endpoint), id, bytes, (unsigned)length);
    usbredirparser_free_packet_data(parser, bytes);
}

static void got_iso(void *p, uint64_t id, struct usb_redir_iso_packet_header *h, uint8_t *bytes, int length)
{
    (void)p;
    (void)id;
    iso_came++;
    queue_packet(INDEX(h->endpoint), 0, bytes, (unsigned)length);
    if (bytes != NULL)
        usbredirparser_free_packet_data(parser, bytes);
}

static void set_stream(uint64_t id, unsigned endpoint, int on)
{
    struct usb_redir_iso_stream_status_header h = {.status = usb_redir_success, .endpoint = (uint8_t)endpoint};

    endpoints[INDEX(endpoint)].receiving = on;
    usbredirparser_send_iso_stream_status(parser, id, &h);
}

static void got_start_stream(void *p, uint64_t id, struct usb_redir_start_iso_stream_header *h)
{
    (void)p;
    set_stream(id, h->endpoint, 1);
}

static void got_stop_stream(void *p, uint64_t id, struct usb_redir_stop_iso_stream_header *h)
{
    (void)p;
    set_stream(id, h->endpoint, 0);
}

static void set_polling(uint64_t id, unsigned endpoint, int on)
{
    struct usb_redir_interrupt_receiving_status_header h = {.status = usb_redir_success, .endpoint = (uint8_t)endpoint};

    endpoints[INDEX(endpoint)].receiving = on;
    usbredirparser_send_interrupt_receiving_status(parser, id, &h);
}

static void got_start_polling(void *p, uint64_t id, struct usb_redir_start_interrupt_receiving_header *h)
{
    (void)p;
    set_polling(id, h->endpoint, 1);
}

static void got_stop_polling(void *p, uint64_t id, struct usb_redir_stop_interrupt_receiving_header *h)
{
    (void)p;
    set_polling(id, h->endpoint, 0);
}

/* The guest takes something back: what is under way is broken off wherever it is. */
static int cancel_packet(uint64_t id)
{
    for (unsigned i = 0; i < ENDPOINTS; i++)
        for (struct packet *p = endpoints[i].first; p != NULL; p = p->next)
            if (p->id == id && id != 0) {
                struct usb_redir_bulk_packet_header h = {
                    .endpoint = (uint8_t)ADDRESS(i), .status = usb_redir_cancelled};

                usbredirparser_send_bulk_packet(parser, id, &h, NULL, 0);
                remove_packet(&endpoints[i], p);
                return 1;
            }
    return 0;
}

static void got_cancel(void *p, uint64_t id)
{
    struct request *r = requests;

    (void)p;
    if (cancel_packet(id))
        return;
    while (r != NULL && (r->id != id || r->kind != CONTROL_PACKET))
        r = r->next;
    if (r != NULL && r == requests) {
        request_over(usb_redir_cancelled);
    } else if (r != NULL) {
        struct usb_redir_control_packet_header h = {.endpoint = r->setup[0] & 0x80, .request = r->setup[1],
                                                    .requesttype = r->setup[0], .status = usb_redir_cancelled};

        usbredirparser_send_control_packet(parser, id, &h, NULL, 0);
        remove_request(r);
    }
}

static void got_nothing(void *p)
{
    (void)p;
}

static void got_filter(void *p, struct usbredirfilter_rule *rules, int count)
{
    (void)p;
    (void)count;
    free(rules);
}

static void log_line(void *p, int level, const char *text)
{
    (void)p;
    if (level <= usbredirparser_warning)
        tell("usbredir: %s", text);
}

void redir_open(void)
{
    uint32_t caps[USB_REDIR_CAPS_SIZE] = {0};

    parser = usbredirparser_create();
    parser->log_func = log_line;
    parser->hello_func = got_hello;
    parser->reset_func = got_reset;
    parser->set_configuration_func = got_set_configuration;
    parser->get_configuration_func = got_get_configuration;
    parser->set_alt_setting_func = got_set_alternate;
    parser->get_alt_setting_func = got_get_alternate;
    parser->start_iso_stream_func = got_start_stream;
    parser->stop_iso_stream_func = got_stop_stream;
    parser->start_interrupt_receiving_func = got_start_polling;
    parser->stop_interrupt_receiving_func = got_stop_polling;
    parser->cancel_data_packet_func = got_cancel;
    parser->filter_reject_func = got_nothing;
    parser->filter_filter_func = got_filter;
    parser->device_disconnect_ack_func = got_nothing;
    parser->control_packet_func = got_control;
    parser->bulk_packet_func = got_bulk;
    parser->iso_packet_func = got_iso;
    parser->interrupt_packet_func = got_interrupt;
    usbredirparser_caps_set_cap(caps, usb_redir_cap_connect_device_version);
    usbredirparser_caps_set_cap(caps, usb_redir_cap_filter);
    usbredirparser_caps_set_cap(caps, usb_redir_cap_device_disconnect_ack);
    usbredirparser_caps_set_cap(caps, usb_redir_cap_ep_info_max_packet_size);
    usbredirparser_caps_set_cap(caps, usb_redir_cap_64bits_ids);
    usbredirparser_caps_set_cap(caps, usb_redir_cap_32bits_bulk_length);
    usbredirparser_init(parser, "usbhs bridge", caps, USB_REDIR_CAPS_SIZE, usbredirparser_fl_usb_host);
}
