-- Requests for wrk, which varnish_traffic.py starts: urls and headers in a fixed order that differs for each thread.
-- The word behind `--` says how many requests each thread sends. It prints a line when it has sent them.

local KINDS = { -- parts of a hundred
    { 72, "GET", "/item/%d" },
    { 6, "GET", "/item/%d?sort=price&page=2" },
    { 5, "GET", "/page/%d" },
    { 5, "GET", "/account/%d?tab=orders" },
    { 3, "POST", "/account/%d" },
    { 2, "GET", "/old/%d" },
    { 2, "GET", "/moved/%d" },
    { 2, "GET", "/none/%d" },
    { 1, "GET", "/busy/%d" },
    { 1, "GET", "/refused/%d" },
    { 1, "GET", "/broken/%d" },
}
local URLS = 300 -- of each kind
local MADE = 5000 -- requests that a thread makes and sends again and again
local AGENTS = {
    "Mozilla/5.0 (X11; Linux x86_64; rv:115.0) Gecko/20100101 Firefox/115.0",
    "Mozilla/5.0 (Windows NT 10.0; Win64; x64) AppleWebKit/537.36 (KHTML, like Gecko) Chrome/120.0.0.0 Safari/537.36",
    "Mozilla/5.0 (iPhone; CPU iPhone OS 17_1 like Mac OS X) AppleWebKit/605.1.15 (KHTML, like Gecko) Mobile/15E148",
    "curl/7.88.1",
    "Feedreader/2.4 (+http://feeds.example.com/about)",
}
local HOSTS = { "www.example.com", "shop.example.com", "static.example.com" }
local LANGUAGES = { "en-GB,en;q=0.9", "de-DE,de;q=0.8,en;q=0.5", "fr", "ja,en;q=0.3" }

local threads = 0
local made, sent, most = {}, 0, 0

function setup(thread)
    threads = threads + 1
    thread:set("seed", threads)
end

-- A kind of the table, each as often as its parts say.
local function any_kind()
    local part = math.random(100)
    for _, kind in ipairs(KINDS) do
        part = part - kind[1]
        if part <= 0 then
            return kind
        end
    end
end

local function any_of(list)
    return list[math.random(#list)]
end

-- The headers of a request. One of twenty asks that its connection is closed, so that sessions end.
local function any_headers(number)
    local headers = {
        ["Host"] = any_of(HOSTS),
        ["User-Agent"] = any_of(AGENTS),
        ["Accept"] = "text/html,application/xhtml+xml,*/*;q=0.8",
        ["Accept-Language"] = any_of(LANGUAGES),
        ["X-Forwarded-For"] = string.format("203.0.113.%d", math.random(250)),
        ["Cookie"] = string.format("session=%08x; theme=dark", math.random(1000000)),
    }
    if math.random(3) > 1 then
        headers["Accept-Encoding"] = "gzip, deflate, br"
    end
    if math.random(4) == 1 then
        headers["Referer"] = string.format("http://www.example.com/page/%d", number)
    end
    if math.random(20) == 1 then
        headers["Connection"] = "close"
    end
    return headers
end

local function any_request()
    local _, method, path = unpack(any_kind())
    local number = math.random(URLS)
    local body = method == "POST" and string.format("order=%d&count=2", number) or nil
    return wrk.format(method, string.format(path, number), any_headers(number), body)
end

function init(words)
    math.randomseed(seed)
    most = tonumber(words[1])
    for at = 1, MADE do
        made[at] = any_request()
    end
end

function request()
    sent = sent + 1
    if sent == most then
        wrk.thread:stop()
        io.stdout:write("sent\n")
        io.stdout:flush()
    end
    return made[sent % MADE + 1]
end
