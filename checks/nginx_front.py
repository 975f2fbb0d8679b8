"""A wiki with nginx in front of it, by the settings of examples/nginx.conf: host names lead to its regions. For checks/serve,
which serves the wiki; here are also the tools that it and this share."""
import os
import pathlib
import random
import re
import shutil
import signal
import socket
import subprocess
import tempfile
import threading
import time

from served import TOP, Skip, Wrong, wants

WEST = "west.wiki.example"
draws = random.Random(8)


def word():
    """A word that was not used before."""
    return f"{draws.getrandbits(48):012x}"


def curl(*words):
    done = subprocess.run(["curl", "-sS", "--max-time", "20", *map(str, words)], stdout=subprocess.PIPE, stderr=subprocess.PIPE,
                          text=True, check=False)
    wants(done.returncode == 0, f"curl ended with {done.returncode}: {done.stderr.strip()}")
    return done.stdout


def needs(name):
    found = shutil.which(name)
    if not found:
        raise Skip(f"{name} is not installed")
    return found


NGINX = """daemon off; master_process off; worker_processes 1; pid {folder}/pid; error_log {folder}/error.log;
events {{ worker_connections 256; }}
http {{
    access_log off; client_body_temp_path {folder}/body; proxy_temp_path {folder}/proxy; fastcgi_temp_path {folder}/fastcgi;
    uwsgi_temp_path {folder}/uwsgi; scgi_temp_path {folder}/scgi;
    {upstream}
    server {{
        listen 127.0.0.1:8081; server_name wiki.example west.wiki.example;
        client_max_body_size 256k; large_client_header_buffers 4 8k;
{location}
    }}
}}
"""


def own_nginx(folder):
    """nginx's own settings: the upstream and the locations of examples/nginx.conf, without TLS, at another port."""
    text = (TOP / "examples/nginx.conf").read_text()
    upstream = re.search(r"upstream wiki \{.*?\n\}", text, re.S)[0]
    location = text[text.index("    location / {"):text.rindex("}")]
    return NGINX.format(folder=folder, upstream=upstream, location=location)


def nginx_in_front_answers_from_both_regions(_wiki):
    program = shutil.which("nginx") or ("/usr/sbin/nginx" if os.path.exists("/usr/sbin/nginx") else needs("nginx"))
    needs("curl")
    with tempfile.TemporaryDirectory() as folder:
        settings = pathlib.Path(folder) / "nginx.conf"
        settings.write_text(own_nginx(folder))
        with subprocess.Popen([program, "-p", folder, "-c", str(settings)], stderr=subprocess.DEVNULL) as front:
            try:
                return through_nginx()
            finally:
                front.send_signal(signal.SIGQUIT)


def through_nginx():
    for _ in range(100):
        with socket.socket() as asked:
            if asked.connect_ex(("127.0.0.1", 8081)) == 0:
                break
        time.sleep(0.05)
    title, text, at = f"Front_{word()}", f"through {word()}", "http://127.0.0.1:8081"
    out = curl("-i", f"{at}/edit", "-H", "Host: wiki.example", "--data-urlencode", f"title={title}", "-d", "base=0",
               "-d", f"token={word()}", "--data-urlencode", f"text={text}")
    wants("303 See Other" in out and out.lower().count("set-cookie:") == 3, out[:200])
    position = re.search(r"cpPosIndex=([^;]+)", out)[1]
    home = curl("-i", f"{at}/wiki/{title}", "-H", "Host: wiki.example")
    wants("200 OK" in home and text in home, f"home: {home[:200]!r}")
    west = curl("-i", f"{at}/wiki/{title}", "-H", f"Host: {WEST}", "-b", f"cpPosIndex={position}")
    wants(("200 OK" in west and text in west) or "503 Service" in west, f"west: {west[:200]!r}")
    main = curl("-i", f"{at}/", "-H", "Host: wiki.example")
    wants("302" in main.split("\r\n")[0] and "/wiki/Main_Page" in main, main[:200])
    # Many browsers at once: each request is one connection to the wiki.
    results = []

    def many(number):
        try:
            host = WEST if number % 2 else "wiki.example"
            results.append(curl("-o", "/dev/null", "-w", "%{http_code}", f"{at}/wiki/{title}", "-H", f"Host: {host}"))
        except Wrong as error:
            results.append(str(error))

    threads = [threading.Thread(target=many, args=[number]) for number in range(30)]
    for thread in threads:
        thread.start()
    for thread in threads:
        thread.join()
    wants(results == ["200"] * 30, f"{[result for result in results if result != '200'][:3]}")
    return "both answer, 30 clients at once"
