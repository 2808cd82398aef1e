# What varnish_traffic.py runs varnishd with: hits, misses, passes, ESI, a restart, a redirect, and answers that fail.
# It puts the backend's port in place of BACKEND_PORT, and one that refuses connections in place of REFUSING_PORT.
vcl 4.1;

import std;

backend default {
    .host = "127.0.0.1";
    .port = "BACKEND_PORT";
}

backend refusing {
    .host = "127.0.0.1";
    .port = "REFUSING_PORT";
}

sub vcl_recv {
    if (req.url ~ "^/moved/") {
        return (synth(301, "Moved Permanently"));
    }
    if (req.url ~ "^/none/") {
        return (synth(404, "Not Found"));
    }
    if (req.url ~ "^/busy/") {
        return (synth(503, "Service Unavailable"));
    }
    if (req.url ~ "^/refused/") {
        set req.backend_hint = refusing;
        return (pass);
    }
    if (req.url ~ "^/account/") {
        return (pass);
    }
    unset req.http.Cookie;
}

sub vcl_backend_response {
    set beresp.grace = 0s;
    set beresp.do_esi = bereq.url ~ "^/page/";
    set beresp.do_gzip = beresp.http.Content-Type ~ "^text/";
}

sub vcl_deliver {
    if (req.url ~ "^/old/" && req.restarts == 0) {
        set req.url = regsub(req.url, "^/old/", "/item/");
        return (restart);
    }
    if (obj.hits > 0) {
        set resp.http.X-Cache = "hit";
    } else {
        set resp.http.X-Cache = "miss";
    }
    std.log("cache:" + resp.http.X-Cache);
}

sub vcl_synth {
    if (resp.status == 301) {
        set resp.http.Location = regsub(req.url, "^/moved/", "/item/");
        set resp.body = "";
        return (deliver);
    }
}
