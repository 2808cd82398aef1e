# What live.py runs varnishd with: of each way that a request can go one url, and payloads that are hard to read.
# It puts the backend's port in place of BACKEND_PORT, and one that refuses connections in place of REFUSING_PORT.
vcl 4.1;

import std;

probe alive {
    .url = "/item/0";
    .interval = 3s;
}

backend default {
    .host = "127.0.0.1";
    .port = "BACKEND_PORT";
    .probe = alive;
}

backend refusing {
    .host = "127.0.0.1";
    .port = "REFUSING_PORT";
}

acl near +log {
    "127.0.0.1";
}

sub vcl_recv {
    if (req.http.X-Said) {
        std.log("said:" + req.http.X-Said);
        std.log({"two lines:
        "} + req.http.X-Said);
    }
    if (req.url ~ "^/forged/") {
        # what stands behind the line feed has the form of a raw line
        std.log({"forged:
         7 ReqURL         c /none/7"});
        std.log({"grouped:
*   << Request  >> 7         
-   ReqURL         /none/7

# "});
    }
    if (req.http.X-Long) {
        std.log("long:" + req.http.X-Long);
    }
    if (client.ip ~ near) {
        set req.http.X-Near = "yes";
    }
    if (req.method == "PURGE") {
        return (purge);
    }
    if (req.http.Upgrade || req.url ~ "^/pipe/") {
        return (pipe);
    }
    if (req.url ~ "^/moved/") {
        return (synth(301, "Moved Permanently"));
    }
    if (req.url ~ "^/none/") {
        return (synth(404, "Not Found"));
    }
    if (req.url ~ "^/failed/") {
        return (fail("as it was asked"));
    }
    if (req.url ~ "^/refused/") {
        set req.backend_hint = refusing;
        return (pass);
    }
    if (req.url ~ "^/account/") {
        return (pass);
    }
    unset req.http.Cookie;
}

sub vcl_pipe {
    if (req.http.Upgrade) {
        set bereq.http.Upgrade = req.http.Upgrade;
        set bereq.http.Connection = req.http.Connection;
    }
}

sub vcl_backend_fetch {
    if (bereq.retries > 0) {
        set bereq.http.X-Retry = bereq.retries;
    }
    if (bereq.url ~ "^/slow/") {
        set bereq.first_byte_timeout = 0.1s;
    }
}

sub vcl_backend_response {
    set beresp.grace = 0s;
    set beresp.do_esi = bereq.url ~ "^/(page|part|bad)/";
    set beresp.do_gzip = beresp.http.Content-Type ~ "^text/";
    if (bereq.url ~ "^/flaky/" && beresp.status == 503 && bereq.retries < 2) {
        return (retry);
    }
    if (bereq.url ~ "^/passed/") {
        return (pass(2s));
    }
    if (bereq.url ~ "^/missed/") {
        set beresp.ttl = 2s;
        set beresp.uncacheable = true;
    }
}

sub vcl_deliver {
    if (req.url ~ "^/old/" && req.restarts == 0) {
        set req.url = regsub(req.url, "^/old/", "/older/");
        return (restart);
    }
    if (req.url ~ "^/older/" && req.restarts == 1) {
        set req.url = regsub(req.url, "^/older/", "/item/");
        return (restart);
    }
    std.log("hits:" + obj.hits);
}

sub vcl_synth {
    if (resp.status == 301) {
        set resp.http.Location = regsub(req.url, "^/moved/", "/item/");
        set resp.body = "";
        return (deliver);
    }
}
