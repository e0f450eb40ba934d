"""Kinds of text as people and programs write them: `REAL` has for each name a function that makes a text of about so
many bytes."""
import json
import random

WORDS = "request server timeout retry client upstream cache token queue worker shard region bucket volume".split()
CHINESE = "设置 用户 密码 保存 删除 取消 错误 连接 服务器 文件 上传 搜索 结果 页面 请输入 名称 确定 登录 退出 通知".split()

KUBERNETES = """---
apiVersion: apps/v1
kind: StatefulSet
metadata:
  name: {word}-{at}
  labels: &l{at}
    app: {word}
    tier: backend
spec:
  serviceName: "{word}"
  replicas: {digit}
  selector:
    matchLabels: *l{at}
  template:
    metadata:
      labels: *l{at}
    spec:
      containers:
      - name: {word}
        image: registry.example.com/{word}@sha256:{hex}
        command: ["/bin/sh", "-c", "exec /app/run --id=$(POD_NAME)"]
        env:
        - name: POD_NAME
          valueFrom: {{fieldRef: {{fieldPath: metadata.name}}}}
        resources:
          limits:
            cpu: "1"
            memory: 1Gi
"""
ACTIONS = """  job_{at}:
    runs-on: ${{{{ matrix.os }}}}
    needs: [lint, {word}]
    if: github.event_name == 'push' && startsWith(github.ref, 'refs/tags/')
    strategy:
      matrix:
        os: [ubuntu-22.04, macos-13, windows-2022]
        python: ["3.9", "3.10", "3.11"]
        include:
          - {{os: ubuntu-22.04, experimental: true}}
    steps:
      - uses: actions/checkout@v4
      - name: {words}
        run: |
          set -euo pipefail
          for f in $(git ls-files '*.py'); do
            python -m {word} "$f" --level={at}
          done
        env:
          TOKEN: ${{{{ secrets.GITHUB_TOKEN }}}}
"""
COMPOSE = """  svc{at}:
    <<: *default
    image: {word}:{digit}.{digit}
    ports:
      - "{at}:80"
      - 127.0.0.1:{at}:9000
    environment:
      DB_URL: postgres://app:pw@db:5432/{word}
      DEBUG: "false"
    volumes: ["./{word}:/data:ro"]
    healthcheck: {{test: ["CMD", "curl", "-f", "http://localhost"], interval: 30s}}
"""
OPENAPI = """  /{word}/{{id}}/{word}{at}:
    get:
      summary: {words}.
      description: >-
        {words} {words} {words}
        {words} {words},
        see [docs](https://example.com/{at}).
      parameters:
        - $ref: '#/components/parameters/Id'
        - in: query
          name: {word}
          schema: {{type: integer, minimum: 0, maximum: {at}}}
      responses:
        '200':
          description: OK
          content:
            application/json:
              schema:
                $ref: "#/components/schemas/{word}"
"""
ANSIBLE = """- name: {words}
  ansible.builtin.template:
    src: {word}.j2
    dest: "/etc/{{{{ app_name }}}}/{word}.conf"
    mode: '0644'
  loop: "{{{{ query('dict', {word}) }}}}"
  when:
    - item.value.state is defined
    - "'{word}' in group_names"
  notify: restart {word}
  tags: [{word}, always]

"""
HELM = """## @section {words}
## @param {word}{at}.enabled  {words} {words}
##
{word}{at}:
  enabled: true
  ## {words} {words}
  ## extra:
  ##   - name: {word}
  ##
  extra: []
  image:
    repository: bitnami/{word}
    tag: {digit}.{digit}.{digit}-debian-12-r{at}
  nodeSelector: {{}}
"""
COMMENTED = """#{word}:
#  - {word}: {at}   # {words}
#    {word}: true
{word}{at}: {word} # {words}

"""
WINDOWS = """# {words}\r
{word}_{at}:\r
  host: {word}.example.com\r
  port: {at}\r
  tags:\r
    - {word}\r
    - '{word}'\r
  notes: |\r
    {words} {words}\r
    {words}\r
"""
SCRIPT = """script{at}: |
  #!/usr/bin/env bash
  set -eu
  {words} "${{{word}:-{at}}}" | grep -v '^#' > /tmp/{word}
    {words} {words}

  {words} {words} {words}
"""
CHINESE_KEYS = """  {word}_{at}:
    title: {chinese}{chinese}
    hint: "{chinese}、{chinese}。"
    more: '{chinese}（{chinese}）'
"""
CHINESE_TEXT = """msg{at}: |
  {chinese}，{chinese}，{chinese}，{chinese}，{chinese}，{chinese}。
  {chinese}，{chinese}，{chinese}，{chinese}。
"""
NESTED = """- - - {word}
    - {at}
  - - x
    - - y
      - z
- - []
"""


class Chosen(dict):
    """What stands in a template: another word at each place."""

    def __init__(self, numbers, at):
        super().__init__(at=at)
        self.numbers = numbers

    def __getitem__(self, name):
        choose = self.numbers.choice
        if name == "at":
            return self.get("at")
        if name == "digit":
            return self.numbers.randint(1, 9)
        if name == "hex":
            return f"{self.numbers.getrandbits(256):064x}"
        if name == "words":
            return " ".join(choose(WORDS) for _ in range(self.numbers.randint(2, 5)))
        return choose(CHINESE if name == "chinese" else WORDS)


def filled(template, front=""):
    """A function that repeats a template behind what comes first."""

    def make(size):
        numbers, made, length = random.Random(2026), [front], len(front)
        while length < size:
            made.append(template.format_map(Chosen(numbers, len(made))))
            length += len(made[-1].encode())
        return "".join(made)

    return make


def json_lines(size):
    """A document of JSON a line."""
    numbers, made, length = random.Random(2026), [], 0
    while length < size:
        it = {"at": len(made), "level": "info", "message": " ".join(numbers.choices(WORDS, k=5)), "ok": True}
        made.append(f"---\n{json.dumps(it)}\n")
        length += len(made[-1])
    return "".join(made)


REAL = {
    "kubernetes": filled(KUBERNETES),
    "actions": filled(ACTIONS, "name: ci\non:\n  push:\n    branches: [main]\njobs:\n"),
    "compose": filled(COMPOSE, "x-default: &default\n  restart: unless-stopped\nservices:\n"),
    "openapi": filled(OPENAPI, "openapi: 3.1.0\ninfo: {title: x, version: '1'}\npaths:\n"),
    "ansible": filled(ANSIBLE, "---\n"),
    "helm": filled(HELM),
    "commented": filled(COMMENTED),
    "windows": filled(WINDOWS),
    "scripts": filled(SCRIPT),
    "chinese_keys": filled(CHINESE_KEYS, "zh-CN:\n"),
    "chinese_text": filled(CHINESE_TEXT),
    "nested_lists": filled(NESTED),
    "json_lines": json_lines,
}
