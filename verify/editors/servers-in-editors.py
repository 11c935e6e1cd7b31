#!/usr/bin/env python3
"""Edits C files in nvim and emacs, over the language server, and checks what they are told.

    make && verify/editors/servers-in-editors.py
    verify/editors/servers-in-editors.py --cbrowse PATH --sources FOLDER

nvim and emacs with eglot (tried with those of Debian 12: 0.7.2, and 28.2 with 1.9) start
`cbrowse-lsp` by themselves, in a folder whose name has a blank and, for nvim, a letter outside
ASCII. An editor that is not there is passed over. What they have to be told was worked out by hand.

    Tree      a small tree under git. Definitions of functions, also of static ones, of parameters,
              of macros in headers and of headers on `#include` lines; hover; uses in all files,
              without the names of definitions; the edits of a rename; highlights; symbols of a
              document and of the workspace. Columns count behind letters outside ASCII. What git
              ignores is not found, nor are links; a new file is
    Edits     definitions follow what is typed before it is saved, and go back where it is undone.
              After a document is closed with its edit thrown away, answers are about the text that
              was saved, or else opened. So it is with a file that was never on disk
    Commands  the editor's own command goes to a definition in another file
    Calls     the editor's own commands list references, complete a name and, in nvim, list calls.
              Calls are walked in both directions, over files; those that are typed count
    Rename    the editor's own command renames a function over three files, of which one is open:
              their buffers have the new name, and one undo in each brings the old one back. So it
              is with a parameter, in its function alone. Where the new name cannot be taken, the
              reason is told and no buffer changes
    Locals    at parameters of macros, of which one has its list on two joined lines, at labels, at
              parameters in the old style and at names that an inner block hides. Other things have
              the same names. The editor's own commands go to the definition, highlight the uses,
              which nvim shows as reads and writes, and list them. A rename changes the macro or the
              function alone, and one undo brings the old name back. Where the new name cannot be
              taken, the reason is told and no buffer changes. So it is with a macro that is typed
    Declared  with --prototypes the editor's own command leads to a prototype or to an external
              declaration, and without it to the definition. At a local it leads to its definition
    Names     a hard link leads to a file that would be edited, or a link to it is open: the rename
              is refused, or each place has the new name once
    Branch    git checks out another branch, in which definitions moved, and goes back. Where eglot
              watches files, they are found where they are now. nvim 0.7.2 watches none: what is
              found are those of files that the server had, where they are now. A new file is found
              once its buffer is opened and closed, or once the notification is sent, here by hand.
              In both, the text of a document that is open counts until it is read again
    Wide      members, enumerators and variables are found by default, and not with --standard;
              locals are found with both
    Link      the tree is opened by a link to it, and each definition is there once
    Quit      no process of the server and no temporary file is left, also where emacs quits without
              ending its server
    Sources   with --sources: in some files of a folder, function definitions that a plain reader of
              lines is sure of are among the symbols, and are found from their names; each place
              that is told holds the name. What is typed in one file is found from another one

Each request is timed in the editor, and the median and the worst time are printed.
"""

from __future__ import annotations

import json
import os
import pathlib
import pty
import re
import select
import shutil
import signal
import statistics
import subprocess
import sys
import tempfile
import time
import urllib.parse
import uuid
from typing import Callable, NamedTuple

sys.path.insert(0, str(pathlib.Path(__file__).resolve().parents[1]))
from shared import RESERVED, TOP, Report, c_files, copy, left_over, options, spread  # noqa: E402
from shared import words_given  # noqa: E402

PATIENCE = 120  # seconds until an editor is given up
AGAIN = 5  # how often each question is asked
# eglot 1.9 takes a path outside ASCII, once it is told it, for another folder.
FOLDERS = {"nvim": "a tree \u00e9", "emacs": "a tree"}
METHODS = {
    "definition": "textDocument/definition",
    "declaration": "textDocument/declaration",
    "hover": "textDocument/hover",
    "uses": "textDocument/references",
    "prepare": "textDocument/prepareRename",
    "rename": "textDocument/rename",
    "marks": "textDocument/documentHighlight",
    "symbols": "textDocument/documentSymbol",
    "workspace": "workspace/symbol",
    "calls": "textDocument/prepareCallHierarchy",
    "folds": "textDocument/foldingRange",
    "names": "textDocument/completion",
}

TREE = {
    ".gitignore": "build/\n",
    "build/copy.c": "int area(void)\n{\n\treturn 0;\n}\n",
    "lib/deep/list.h": "enum order { UP, DOWN };\nint grow(int n);\n",
    "lib/list.c": '#include "deep/list.h"\nint grow(int n)\n{\n\treturn n * 2;\n}\n',
    "old/shape.h": "int old;\n",
    "src/items.c": """\
#include "items.h"
int total;
int add(struct item *it, int count)
{
	for (; it; it = it->next) {
		int count = it->count;
		if (count < 0)
			goto count;
		total += count;
	}
	return total + count;
count:
	return -1;
}
int put(struct item *it, int count)
{
	int last;
	ADD(count, it, last);
	return last;
}
int least(first, last) int last; { return first < last ? first : last; }
int lost(int n)
{
	goto missing;
	return MORE(n, 1);
}
""",
    "src/items.h": """\
#ifndef ITEMS_H
#define ITEMS_H
struct item {
	int count;
	struct item *next;
};
extern int total;
int add(struct item *it, int count);
#define ADD(count, total, \\
            add) do { /* \u00e9 \U0001f388 */ int kept = (total)->count; \\
	(total)->count += count; add = kept; } while (0)
#define TEXT(it) #it
#define PRINT(count) add(TEXT(count), count)
#define MORE(n, by) ((n) + (by))
#endif
""",
    "src/main.c": """\
#include <stdio.h>
#include "shape.h"
#include "deep/list.h"

static int helper(int a)
{
	return a + SIDES;
}

int main(void)
{
	/* \u00e9 \U0001f388 */ return helper(area(0)) + grow(2);
}
""",
    "src/shape.c": """\
#include "shape.h"
static int helper(const struct shape *it)
{
	return it->w * it->h;
}
int area(const struct shape *it)
{
	return helper(it);
}
""",
    "src/shape.h": """\
#ifndef SHAPE_H
#define SHAPE_H
#define SIDES 4
struct shape {
	int w, h;
};
typedef struct shape shape_t;
int area(const struct shape *it);
#endif
""",
}
NEW = {"src/new.c": "int fresh(void)\n{\n\treturn 0;\n}\n"}
ITEMS_C, ITEMS_H = "src/items.c", "src/items.h"
# What another branch has, without lib/list.c.
BRANCH = {
    "lib/grow.c": "int grow(int n)\n{\n\treturn n * 3;\n}\n",
    "src/shape.c": "/* It is */\n/* moved. */\n" + TREE["src/shape.c"],
    "src/shape.h": "/* So is this. */\n" + TREE["src/shape.h"],
}
FUNCTION, MACRO, TYPEDEF, STRUCT, ENUM = 12, 14, 5, 23, 10
ENUMERATOR, MEMBER, VARIABLE = 22, 8, 13
TEXT, READ, WRITE = 1, 2, 3  # kinds of a highlight
FUNCTION_NAME, MACRO_NAME, STRUCT_NAME, TYPEDEF_NAME = 3, 21, 22, 7  # in a completion
CREATED = 1  # a file event
ENDS = "start", "end"

# Does the steps of the file `STEPS`, and writes what it was told: JSON, with the milliseconds.
NVIM_SCRIPT = r"""
local function read(name) return vim.fn.json_decode(table.concat(vim.fn.readfile(name), '')) end
local given, found, client, id = read(vim.env.STEPS), {}, nil, nil
local said = {}
vim.notify = function(text) table.insert(said, text) end
local function path(file) return given.root .. '/' .. file end
local function show(file)
  local number = vim.fn.bufnr('^' .. vim.loop.fs_realpath(given.root) .. '/' .. file .. '$')
  vim.cmd(number > 0 and 'buffer ' .. number or 'silent edit ' .. vim.fn.fnameescape(path(file)))
end
local function at(step)
  show(step[2])
  vim.api.nvim_win_set_cursor(0, {step[3] + 1, step[4]})
end
local function request(method, params)
  local done, result
  client.request(method, params, function(err, answer)
    done, result = vim.loop.hrtime(), err and {error = err} or answer
  end, vim.api.nvim_get_current_buf())
  vim.wait(20000, function() return done ~= nil end, 1)
  return result, done
end
local function position() return vim.lsp.util.make_position_params(0, client.offset_encoding) end
-- What a command puts into the list of nvim.
local function listed(command)
  vim.fn.setqflist({}, 'r')
  command()
  vim.wait(5000, function() return #vim.fn.getqflist() > 0 end, 5)
  vim.cmd('cclose')
  local lines = {}
  for _, it in ipairs(vim.fn.getqflist()) do
    table.insert(lines, {vim.api.nvim_buf_get_name(it.bufnr), it.lnum - 1, it.col - 1, it.text})
  end
  return {lines}
end
local does = {}
function does.open(step)
  show(step[2])
  vim.bo.filetype = 'c'
  vim.lsp.buf_attach_client(0, id)
  vim.wait(30000, function() return vim.lsp.buf_get_clients(0)[id] ~= nil end, 5)
  client = vim.lsp.get_client_by_id(id)
end
function does.type(step)
  show(step[2])
  vim.api.nvim_buf_set_lines(0, step[3], step[3], true, step[4])
  vim.wait(200)  -- it sends what is typed after 150 ms
end
function does.undo(step)
  show(step[2])
  vim.cmd('silent undo')
  vim.wait(200)
end
function does.save(step) show(step[2]) vim.cmd('silent write') end
function does.drop(step) vim.cmd('silent bwipeout! ' .. vim.fn.fnameescape(path(step[2]))) end
function does.jump(step)
  at(step)
  local function now() return vim.fn.expand('%:p') .. vim.fn.line('.') .. ':' .. vim.fn.col('.') end
  local before = now()
  vim.lsp.buf.definition()
  vim.wait(10000, function() return now() ~= before end, 5)
  local cursor = vim.api.nvim_win_get_cursor(0)
  return {{vim.fn.expand('%:p'), cursor[1] - 1, cursor[2]}}
end
function does.declare(step)
  at(step)
  local told, own = false, vim.lsp.handlers['textDocument/declaration']
  vim.lsp.handlers['textDocument/declaration'] = function(...)
    own(...)
    told = true
  end
  vim.lsp.buf.declaration()
  vim.wait(10000, function() return told end, 1)
  vim.lsp.handlers['textDocument/declaration'] = own
  local cursor, file = vim.api.nvim_win_get_cursor(0), vim.fn.expand('%:p')
  local is_there = cursor[1] == step[3] + 1 and cursor[2] == step[4] and file == path(step[2])
  return {is_there and {} or {{file, cursor[1] - 1, cursor[2], ''}}}
end
function does.light(step)
  local space, marks = vim.api.nvim_create_namespace('vim_lsp_references'), {}
  at(step)
  vim.lsp.buf.clear_references()
  vim.lsp.buf.document_highlight()
  vim.wait(5000, function()
    marks = vim.api.nvim_buf_get_extmarks(0, space, 0, -1, {details = true})
    return #marks > 0
  end, 5)
  for number, it in ipairs(marks) do
    marks[number] = {it[2], it[3], it[4].end_col, it[4].hl_group}
  end
  return {marks}
end
function does.list(step)
  at(step)
  return listed(function() vim.lsp.buf.references() end)
end
function does.calls(step)
  at(step)
  return listed(vim.lsp.buf[step[5] .. '_calls'])
end
function does.walk(step)
  local calls, items = {}, nil
  at(step)
  items = request('textDocument/prepareCallHierarchy', position()) or {}
  for _ = 1, 5 do
    local more = {}
    for _, item in ipairs(items) do
      for _, it in ipairs(request('callHierarchy/' .. step[5] .. 'Calls', {item = item})) do
        table.insert(calls, {item.name, it.from or it.to, it.fromRanges})
        table.insert(more, it.from or it.to)
      end
    end
    items = more
  end
  return {calls}
end
function does.complete(step)
  local names, timer, turns = {}, vim.loop.new_timer(), 0
  at({'', step[2], step[3], step[4] - 1})
  vim.bo.omnifunc = 'v:lua.vim.lsp.omnifunc'
  timer:start(20, 20, vim.schedule_wrap(function()
    local items = vim.fn.complete_info({'items'}).items
    turns = turns + 1
    if #names > 0 or #items == 0 and turns < 250 then return end
    for _, it in ipairs(items) do table.insert(names, it.word) end
    timer:stop()
    vim.api.nvim_input('<C-Y><Esc>')
  end))
  local keys = vim.api.nvim_replace_termcodes('a<C-X><C-O>', true, true, true)
  vim.api.nvim_feedkeys(keys, 'nx!', false)  -- it comes back once insert mode is left
  vim.wait(200)
  return {{names, vim.fn.getline('.')}}
end
function does.rename(step)
  at(step)
  vim.cmd('let &undolevels = &undolevels')  -- ends what one undo takes back, as a key does
  local before = vim.b.changedtick
  said = {}
  vim.lsp.buf.rename(step[5])
  vim.wait(5000, function() return vim.b.changedtick ~= before or #said > 0 end, 5)
  vim.wait(200)
  return {said}
end
function does.text(step)
  show(step[2])
  return {vim.api.nvim_buf_get_lines(0, 0, -1, true)}
end
function does.git(step)
  local told = vim.fn.system({'git', '-C', given.root, unpack(step, 2)})
  if vim.v.shell_error ~= 0 then error(told) end
end
function does.reread(step)  -- `edit!` would end the watch of a buffer, for want of an autocommand
  vim.cmd('silent checktime ' .. vim.fn.bufnr('/' .. step[2] .. '$'))
  vim.wait(200)
end
function does.tell(step)
  local changes = {}
  for number = 2, #step do
    local file, kind = unpack(step[number])
    table.insert(changes, {uri = vim.uri_from_fname(path(file)), type = kind})
  end
  client.notify('workspace/didChangeWatchedFiles', {changes = changes})
end
function does.ask(step)
  local params, times, result
  if step[3] == 'workspace/symbol' then
    params = {query = step[4]}
  else
    at({'', step[2], step[4] or 0, step[5] or 0})
    params = position()
    params.context = {includeDeclaration = false}  -- of a request for uses
    params.newName = 'renamed'
  end
  times = {}
  for _ = 1, given.again do
    local began, done = vim.loop.hrtime(), nil
    result, done = request(step[3], params)
    table.insert(times, done and (done - began) / 1e6 or 20000)
  end
  return {result == nil and vim.NIL or result, times}
end
id = vim.lsp.start_client({
  name = 'cbrowse', cmd = given.command, cmd_cwd = given.root, root_dir = given.root,
})
for _, step in ipairs(given.steps) do
  local ok, answer = pcall(does[step[1]], step)
  table.insert(found, ok and (answer or {vim.NIL}) or {'failed: ' .. tostring(answer)})
end
vim.fn.writefile({vim.fn.json_encode(found)}, vim.env.FOUND)
vim.cmd('qall!')
"""

# The same in emacs. An idle timer sends what is typed after 0.5 s, so each step is a timer of its
# own, and emacs waits for keys between two.
EMACS_SCRIPT = r"""
(setq native-comp-deferred-compilation nil)
(require 'json)
(require 'eglot)
(setq make-backup-files nil auto-save-default nil create-lockfiles nil vc-follow-symlinks t
      inhibit-message t eglot-confirm-server-initiated-edits nil enable-local-variables nil)
(defvar given (let ((json-array-type 'list)) (json-read-file (getenv "STEPS"))))
(defun of (name) (alist-get name given))
(defun path (file) (concat (of 'root) "/" file))
(defun show (file) (switch-to-buffer (find-file-noselect (path file))))
(defun at (file line column)
  (show file)
  (goto-char (point-min))
  (forward-line line)
  (goto-char (byte-to-position (+ (position-bytes (point)) column))))
(add-to-list 'eglot-server-programs (cons 'c-mode (of 'command)))
(defun open (file)
  (show file)
  (unless (eglot-current-server)
    (let ((eglot-sync-connect 30)) (apply #'eglot--connect (eglot--guess-contact))))
  (with-timeout (30)  ; where the machine is busy, emacs knows of the server a little later
    (while (not (eglot-current-server)) (accept-process-output nil 0.05))))
(defun type (file line lines)
  (at file line 0)
  (undo-boundary)
  (insert (mapconcat #'identity lines "\n") "\n")
  (undo-boundary))
(defun undo-it (file) (show file) (setq last-command nil) (undo))
(defun save (file) (show file) (save-buffer))
(defun drop (file)  ; which may be another one on disk by now
  (with-current-buffer (find-buffer-visiting (path file))
    (set-buffer-modified-p nil)
    (kill-buffer)))
(defun jump (file line column)
  (at file line column)
  (xref-find-definitions "LSP identifier at point.")
  (vector (vconcat (place-at-point))))
(defun place-at-point ()
  (list buffer-file-name (1- (line-number-at-pos))
        (- (position-bytes (point)) (position-bytes (line-beginning-position)))))
(defun list-uses (file line column)
  (listed file line column
          (lambda () (xref-find-references "LSP identifier at point."))))
(defun declare-it (file line column) (listed file line column #'eglot-find-declaration))
(defun light (file line column)
  (at file line column)
  (let ((marks (lambda ()
                 (cl-remove-if-not
                  (lambda (it) (eq (overlay-get it 'face) 'eglot-highlight-symbol-face))
                  (overlays-in (point-min) (point-max))))))
    (mapc #'delete-overlay (funcall marks))
    (eldoc-print-current-symbol-info t)
    (with-timeout (5)
      (while (not (funcall marks)) (accept-process-output nil 0.02)))
    (vector
     (vconcat
      (mapcar (lambda (it)
                (save-excursion
                  (vector (progn (goto-char (overlay-start it)) (nth 1 (place-at-point)))
                          (nth 2 (place-at-point))
                          (progn (goto-char (overlay-end it)) (nth 2 (place-at-point))))))
              (cl-sort (funcall marks) #'< :key #'overlay-start))))))
(defun listed (file line column command)
  (at file line column)
  (let* ((xrefs nil)
         (xref-show-xrefs-function (lambda (fetcher _) (setq xrefs (funcall fetcher)))))
    (funcall command)
    (vector (vconcat (mapcar (lambda (it)
                               (let ((where (xref-location-marker (xref-item-location it))))
                                 (with-current-buffer (marker-buffer where)
                                   (save-excursion (goto-char where)
                                                   (vconcat (place-at-point) [""])))))
                             xrefs)))))
(defun asked (method words) (jsonrpc-request (eglot-current-server) method words))
(defun walk (file line column way)
  (at file line column)
  (let ((items (asked :textDocument/prepareCallHierarchy (eglot--TextDocumentPositionParams)))
        (method (intern (format ":callHierarchy/%sCalls" way)))
        calls more)
    (dotimes (_ 5)
      (setq more nil)
      (mapc (lambda (item)
              (mapc (lambda (it)
                      (let ((other (or (plist-get it :from) (plist-get it :to))))
                        (push (vector (plist-get item :name) other (plist-get it :fromRanges))
                              calls)
                        (push other more)))
                    (asked method (list :item item))))
            items)
      (setq items (nreverse more)))
    (vector (vconcat (nreverse calls)))))
(defun complete (file line column)
  (at file line column)
  (let* ((told (eglot-completion-at-point))
         (typed (buffer-substring-no-properties (car told) (point)))
         (names (mapcar #'substring-no-properties (all-completions typed (nth 2 told)))))
    (completion-at-point)
    (vector (vector (vconcat names) (buffer-substring-no-properties
                                     (line-beginning-position) (line-end-position))))))
(defun rename (file line column name)
  (at file line column)
  (condition-case why
      (cl-letf (((symbol-function 'y-or-n-p) (lambda (_) t)))  ; it asks of files without a buffer
        (eglot-rename name)
        [[]])
    (jsonrpc-error (vector (vector (alist-get 'jsonrpc-error-message (cddr why)))))))
(defun text (file)
  (show file)
  (vector (vconcat (butlast (split-string (buffer-substring-no-properties 1 (point-max)) "\n")))))
(defun git (&rest words)
  (with-temp-buffer
    (unless (zerop (apply #'call-process "git" nil t nil "-C" (of 'root) words))
      (error (buffer-string)))))
(defun reread (file)
  (with-current-buffer (find-buffer-visiting (path file)) (revert-buffer t t)))
(defun ask (file method &optional line column)
  (let (result times)
    (if (stringp line) (show file) (at file (or line 0) (or column 0)))
    (dotimes (_ (of 'again))
      (let ((began (float-time)))
        (setq result (condition-case why
                         (asked (intern (concat ":" method))
                                (if (stringp line) (list :query line)
                                  (append (eglot--TextDocumentPositionParams)
                                          '(:context (:includeDeclaration :json-false)  ; of uses
                                            :newName "renamed"))))
                       (jsonrpc-error
                        (list :error (list :message (alist-get 'jsonrpc-error-message
                                                               (cddr why)))))))
        (push (* 1000 (- (float-time) began)) times)))
    (vector result (vconcat times))))
(defun step-done (step)
  (let ((does (pcase (car step) ("undo" #'undo-it) ("list" #'list-uses)
                ("declare" #'declare-it) (it (intern it)))))
    (condition-case why
        (let ((answer (apply does (cdr step))))
          (undo-auto--boundaries 'command)  ; in each buffer that changed, as after a command
          (if (vectorp answer) answer [nil]))
      (error (vector (format "failed: %S" why))))))
(defvar steps (of 'steps))
(defvar found nil)
(defun next-step ()
  (let ((step (pop steps)))
    (push (step-done step) found)
    (run-with-timer (pcase (car step)
                      ((or "type" "undo" "complete" "rename") 0.7)
                      ("git" 2)  ; what it watches is told while it waits, too
                      (_ 0.01))
                    nil
                    (if steps #'next-step #'all-done))))
(defun all-done ()
  (with-temp-file (getenv "FOUND")
    (set-buffer-multibyte nil)
    (insert (encode-coding-string (jsonrpc--json-encode (vconcat (nreverse found))) 'utf-8)))
  (dolist (buffer (buffer-list)) (with-current-buffer buffer (set-buffer-modified-p nil)))
  (when (equal (of 'end) "shutdown") (eglot-shutdown-all))
  (dolist (process (process-list)) (set-process-query-on-exit-flag process nil))
  (kill-emacs))
(run-with-timer 0.1 nil #'next-step)
"""


class Counted(Report):
    """Counts what passes, too."""

    passed = 0

    def check(self, what: str, is_right: bool, said: object = "") -> None:
        self.passed += bool(is_right)
        super().check(what, is_right, said)

    def equal(self, what: str, expected: object, found: object) -> None:
        self.check(what, expected == found, f"expected {expected}, found {str(found)[:400]}")

    def status(self) -> int:
        print(f"{self.passed} passed, {self.failures} failed", flush=True)
        return 1 if self.failures else 0


report = Counted()
times: dict[tuple[str, str, str], list[tuple[float, str]]] = {}


# ---- what an editor is told to do


class Plan:
    """Steps, and what each of them has to be answered with."""

    def __init__(self, root: pathlib.Path, words: tuple[str, ...] = (), end: str = "shutdown"):
        self.root, self.words, self.end = root, words, end
        self.steps: list[list] = []
        self.expected: list = []  # a pair of a text and a value or a test; None: not looked at

    def do(self, what: str, *words: object) -> None:
        self.steps.append([what, *words])
        self.expected.append(None)

    def jump(self, file: str, line: int, column: int, expected: list) -> None:
        self.steps.append(["jump", file, line, column])
        self.expected.append((f"the command at {file}:{line}:{column}", expected))

    def look(self, what: str, *words: object, is_now: object) -> None:
        """A step that has an answer: what an own command of the editor does, calls, a buffer."""
        self.steps.append([what, *words])
        self.expected.append((f"{what} {':'.join(map(str, words))}", is_now))

    def texts(self, texts: dict[str, str]) -> None:
        """What the buffers hold."""
        for file, text in texts.items():
            self.look("text", file, is_now=text.splitlines())

    def ask(self, what: str, file: str, *words: object, is_now: object) -> None:
        """A question about a place, by its line and its column in bytes, a file, or a name."""
        self.steps.append(["ask", file, METHODS[what], *words])
        place = ":".join(map(str, words if what == "workspace" else [file, *words]))
        self.expected.append((f"{what} {place}", is_now))


IS_USED, IS_MACRO, IS_BAD = "name is used already", "a macro or type has this name", "bad name"


def told_why(why: str) -> Callable[[list], bool]:
    """A test of a rename that is refused: the editor tells this reason, behind words of its own."""
    return lambda told: bool(told) and told[0].endswith(why)


def questions(plan: Plan) -> None:
    """What stands in the files of the tree."""
    main, shape, header = "src/main.c", "src/shape.c", "src/shape.h"
    plan.do("open", main)
    for line, column, places in [
        (11, 29, [(shape, 5, 4, 8)]),  # area
        (11, 33, [(shape, 5, 4, 8)]),  # the place at its end
        (11, 22, [(main, 4, 11, 17)]),  # helper, static in two files
        (11, 40, [("lib/list.c", 1, 4, 8)]),  # grow
        (6, 12, [(header, 2, 8, 13)]),  # SIDES
        (1, 12, [(header, 0, 0, 0)]),  # "shape.h", which is beside and in the folder old too
        (2, 15, [("lib/deep/list.h", 0, 0, 0)]),
        (0, 12, []),  # <stdio.h>
        (3, 0, []),  # no word
        (11, 15, []),  # return
    ]:
        plan.ask("definition", main, line, column, is_now=places)
    area = "src/shape.c:6\nint area(const struct shape *it)"
    plan.ask("hover", main, 11, 29, is_now=(area, 11, 26, 30))
    helper = "src/main.c:5\nstatic int helper(int a)"
    plan.ask("hover", main, 11, 22, is_now=(helper, 11, 19, 25))
    plan.ask("hover", main, 11, 15, is_now=None)
    plan.ask("uses", main, 11, 22, is_now=[(main, 11, 19, 25)])  # helper, static in two files
    plan.ask("uses", main, 11, 40, is_now=[("lib/deep/list.h", 1, 4, 8), (main, 11, 37, 41)])
    plan.ask("uses", main, 6, 12, is_now=[(main, 6, 12, 17)])  # SIDES
    plan.ask("uses", main, 11, 15, is_now=[])
    plan.ask("prepare", main, 11, 22, is_now=(11, 19, 25))  # helper
    plan.ask("prepare", main, 11, 15, is_now=None)
    plan.ask("rename", main, 11, 22, is_now=[(main, 4, 11, 17), (main, 11, 19, 25)])
    plan.ask("marks", main, 11, 22, is_now=[(4, 11, 17), (11, 19, 25)])  # helper
    plan.ask("marks", main, 6, 17, is_now=[(6, 12, 17)])  # SIDES
    plan.ask("marks", main, 11, 15, is_now=[])
    plan.ask("symbols", main, is_now=[("helper", FUNCTION, 4, 11), ("main", FUNCTION, 9, 4)])
    plan.ask("folds", main, is_now=[(4, 7), (9, 12)])
    both = [("helper", FUNCTION, main, 4, 11), ("helper", FUNCTION, shape, 1, 11)]
    plan.ask("workspace", main, "helper", is_now=both)
    guard = ("SHAPE_H", MACRO, header, 1, 8)
    struct, typedef = ("shape", STRUCT, header, 3, 7), ("shape_t", TYPEDEF, header, 6, 21)
    plan.ask("workspace", main, "shape", is_now=[struct, guard, typedef])
    plan.ask("workspace", main, "SHAPE", is_now=[guard, struct, typedef])
    plan.ask("workspace", main, "area", is_now=[("area", FUNCTION, shape, 5, 4)])
    plan.ask("workspace", main, "fresh", is_now=[("fresh", FUNCTION, "src/new.c", 0, 4)])
    plan.ask("workspace", main, "order", is_now=[("order", ENUM, "lib/deep/list.h", 0, 5)])
    plan.ask("workspace", main, "nowhere", is_now=[])
    plan.do("open", shape)
    plan.ask("definition", shape, 7, 8, is_now=[(shape, 1, 11, 17)])
    plan.ask("definition", shape, 3, 12, is_now=[(header, 4, 5, 6)])  # a member
    # a parameter, which has the name of others
    plan.ask("definition", shape, 7, 15, is_now=[(shape, 5, 29, 31)])
    plan.ask("uses", shape, 7, 15, is_now=[(shape, 7, 15, 17)])
    plan.ask("marks", shape, 7, 15, is_now=[(5, 29, 31, TEXT), (7, 15, 17, READ)])
    plan.ask("prepare", shape, 7, 15, is_now=(7, 15, 17))
    plan.jump(shape, 3, 8, [(shape, 1, 38)])
    plan.jump(main, 11, 29, [(shape, 5, 4)])
    plan.jump(main, 6, 12, [(header, 2, 8)])
    plan.jump(shape, 7, 8, [(shape, 1, 11)])


def profile(plan: Plan, is_wide: bool) -> None:
    """Members, enumerators and variables, which the wide profile alone finds, and locals."""
    shape, header, deep = "src/shape.c", "src/shape.h", "lib/deep/list.h"
    plan.do("open", shape)
    plan.ask("definition", shape, 3, 12, is_now=[(header, 4, 5, 6)] if is_wide else [])
    plan.ask("definition", shape, 12, 15, is_now=[(shape, 10, 29, 31)])  # a parameter
    plan.ask("definition", ITEMS_H, 10, 21, is_now=[(ITEMS_H, 8, 12, 17)])  # one of a macro
    member = ("src/shape.h:5\nint w, h;", 3, 12, 13)
    plan.ask("hover", shape, 3, 12, is_now=member if is_wide else None)
    for query, more, always in [
        ("w", [("w", MEMBER, header, 4, 5), ("DOWN", ENUMERATOR, deep, 0, 17)], ["grow"]),
        ("UP", [("UP", ENUMERATOR, deep, 0, 13)], []),
        ("old", [("old", VARIABLE, "old/shape.h", 0, 4)], []),
    ]:
        functions = [(name, FUNCTION, "lib/list.c", 1, 4) for name in always]
        plan.ask("workspace", shape, query, is_now=[*(more if is_wide else []), *functions])
    plan.do("open", header)
    members = [("w", MEMBER, 4, 5), ("h", MEMBER, 4, 8)] if is_wide else []
    begin = [("SHAPE_H", MACRO, 1, 8), ("SIDES", MACRO, 2, 8), ("shape", STRUCT, 3, 7)]
    plan.ask("symbols", header, is_now=[*begin, *members, ("shape_t", TYPEDEF, 6, 21)])


def edits(plan: Plan) -> None:
    """What is typed, saved, undone and thrown away, after the questions."""
    main, shape, header = "src/main.c", "src/shape.c", "src/shape.h"
    plan.do("type", shape, 5, ["int extra(int n)", "{", "\treturn n;", "}", ""])
    plan.ask("definition", main, 11, 29, is_now=[(shape, 10, 4, 8)])
    plan.ask("workspace", main, "extra", is_now=[("extra", FUNCTION, shape, 5, 4)])
    told = [("helper", FUNCTION, 1, 11), ("extra", FUNCTION, 5, 4), ("area", FUNCTION, 10, 4)]
    plan.ask("symbols", shape, is_now=told)
    extra = "src/shape.c:6\nint extra(int n)"
    plan.ask("hover", shape, 5, 4, is_now=(extra, 5, 4, 9))
    plan.ask("marks", shape, 7, 9, is_now=[(5, 14, 15, TEXT), (7, 8, 9, READ)])  # n, not saved
    plan.jump(main, 11, 29, [(shape, 10, 4)])
    plan.do("open", header)
    plan.do("type", header, 2, ["#define EXTRA 1"])
    plan.ask("definition", main, 6, 12, is_now=[(header, 3, 8, 13)])
    plan.do("save", shape)
    plan.ask("definition", main, 11, 29, is_now=[(shape, 10, 4, 8)])
    plan.do("type", shape, 0, ["/* \u00e9 */"])
    plan.ask("definition", main, 11, 29, is_now=[(shape, 11, 4, 8)])
    plan.do("drop", shape)
    plan.ask("definition", main, 11, 29, is_now=[(shape, 10, 4, 8)])
    plan.do("drop", header)
    plan.ask("definition", main, 6, 12, is_now=[(header, 2, 8, 13)])
    plan.do("type", main, 4, ["static int area(int a) { return a; }"])
    plan.ask("definition", main, 12, 29, is_now=[(main, 4, 11, 15)])
    plan.do("undo", main)
    plan.ask("definition", main, 11, 29, is_now=[(shape, 10, 4, 8)])
    plan.do("open", "src/brand.c")
    plan.do("type", "src/brand.c", 0, ["int brandish(void) { return 0; }"])
    brand = [("brandish", FUNCTION, "src/brand.c", 0, 4)]
    plan.ask("workspace", main, "brandish", is_now=brand)
    plan.do("drop", "src/brand.c")
    plan.ask("workspace", main, "brandish", is_now=[])
    plan.do("open", shape)
    plan.ask("definition", main, 11, 29, is_now=[(shape, 10, 4, 8)])


def calls(plan: Plan, editor: str) -> None:
    """References, calls and completions, by the commands that the editor has for them."""
    main, shape, header, grow = "src/main.c", "src/shape.c", "src/shape.h", "lib/list.c"
    plan.do("open", main)
    plan.do("open", shape)
    uses = [("lib/deep/list.h", 1, 4), (grow, 1, 4), (main, 11, 40)]
    plan.look("list", main, 11, 40, is_now=uses)
    plan.look("list", main, 11, 22, is_now=[(main, 4, 11), (main, 11, 22)])
    plan.look("list", main, 11, 29, is_now=[(main, 11, 29), (shape, 5, 4), (header, 7, 4)])

    area = [("area", FUNCTION, shape, 5, 4)]
    plan.ask("calls", main, 11, 29, is_now=area)
    plan.ask("calls", main, 11, 15, is_now=None)  # return
    plan.ask("calls", shape, 3, 12, is_now=None)  # a member
    in_main = ("area", "main", main, 9, 4, [(11, 26, 30)])
    in_area = ("helper", "area", shape, 5, 4, [(7, 8, 14)])
    plan.look("walk", shape, 7, 8, "incoming", is_now=[in_area, in_main])
    plan.look("walk", main, 11, 22, "incoming", is_now=[("helper", *in_main[1:5], [(11, 19, 25)])])
    out = [
        ("main", "helper", main, 4, 11, [(11, 19, 25)]),
        ("main", "area", shape, 5, 4, [(11, 26, 30)]),
        ("main", "grow", grow, 1, 4, [(11, 37, 41)]),
        ("area", "helper", shape, 1, 11, [(7, 8, 14)]),
    ]
    plan.look("walk", main, 9, 4, "outgoing", is_now=out)
    plan.look("walk", shape, 7, 8, "outgoing", is_now=[])
    if editor == "nvim":
        # 0.7.2 takes a column for one in bytes, and the file of what is called for that of a call.
        plan.look("calls", main, 11, 29, "incoming", is_now=[(main, 11, 26, "main")])
        there = [(main, 11, 19, "helper"), (shape, 11, 26, "area"), (grow, 11, 37, "grow")]
        plan.look("calls", main, 9, 4, "outgoing", is_now=sorted(there))
    plan.do("type", shape, 9, ["int twice(void)", "{", "\treturn area(0) + area(0);", "}"])
    in_twice = ("area", "twice", shape, 9, 4, [(11, 8, 12), (11, 18, 22)])
    plan.look("walk", main, 11, 29, "incoming", is_now=[in_main, in_twice])
    of_twice = ("twice", "area", shape, 5, 4, in_twice[5])
    plan.look("walk", shape, 9, 4, "outgoing", is_now=[of_twice, out[3]])
    plan.do("undo", shape)
    plan.look("walk", main, 11, 29, "incoming", is_now=[in_main])

    shapes = [("shape", STRUCT_NAME), ("shape_t", TYPEDEF_NAME)]
    macros = [("SHAPE_H", MACRO_NAME), ("SIDES", MACRO_NAME)]
    plan.ask("names", main, 11, 25, is_now=(False, [("helper", FUNCTION_NAME)]))  # he|lper
    plan.ask("names", main, 6, 13, is_now=(False, macros))  # S|IDES
    plan.ask("names", shape, 2, 0, is_now=(True, []))
    plan.ask("names", shape, 1, 34, is_now=(False, shapes))  # sha|pe
    plan.do("type", main, 6, ["\tgro", "\tstruct sha"])
    plan.look("complete", main, 6, 4, is_now=(["grow"], "\tgrow"))
    plan.look("complete", main, 7, 11, is_now=(["shape", "shape_t"], "\tstruct shape"))
    plan.ask("definition", main, 6, 4, is_now=[(grow, 1, 4, 8)])
    plan.ask("definition", main, 7, 12, is_now=[(header, 3, 7, 12)])
    plan.do("type", shape, 0, ["int grovel(void) { return 0; }"])
    plan.do("type", main, 6, ["\tgro"])
    plan.look("complete", main, 6, 4, is_now=lambda told: told[0] == ["grovel", "grow"])


def parameter(plan: Plan) -> None:
    """A rename of a parameter, which has the name of another one, and back."""
    shape = "src/shape.c"
    place, old = (shape, 7, 15), TREE[shape]
    new = old.replace("area(const struct shape *it)", "area(const struct shape *one)")
    new = new.replace("helper(it)", "helper(one)")
    plan.look("rename", *place, "helper", is_now=told_why(IS_USED))
    plan.ask("rename", *place, is_now=[(shape, 5, 29, 31), (shape, 7, 15, 17)])
    plan.look("rename", *place, "one", is_now=[])
    plan.texts({shape: new})
    plan.do("undo", shape)
    plan.texts({shape: old})


def renames(plan: Plan) -> None:
    """A rename over three files, of which one is open, and back."""
    main, shape, header = files = "src/main.c", "src/shape.c", "src/shape.h"
    old = {file: TREE[file] for file in files}
    new = {file: re.sub(r"\barea\b", "surface", TREE[file]) for file in files}
    once = {**old, main: TREE[main].replace("helper", "renamed")}
    place = main, 11, 29
    plan.do("open", main)
    for name, why in ("return", IS_BAD), ("grow", IS_USED):
        plan.look("rename", *place, name, is_now=told_why(why))
    plan.texts({main: old[main]})
    plan.ask("rename", *place, is_now=[(main, 11, 26, 30), (shape, 5, 4, 8), (header, 7, 4, 8)])
    plan.look("rename", *place, "surface", is_now=[])
    plan.texts(new)
    for file in shape, header:  # an editor that is set up to start the server does so by itself
        plan.do("open", file)
    plan.ask("definition", *place, is_now=[(shape, 5, 4, 11)])
    plan.ask("uses", *place, is_now=[(main, 11, 26, 33), (header, 7, 4, 11)])
    plan.ask("workspace", main, "area", is_now=[])
    for file in files:
        plan.do("undo", file)
    plan.texts(old)
    plan.ask("definition", *place, is_now=[(shape, 5, 4, 8)])
    plan.ask("uses", *place, is_now=[(main, 11, 26, 30), (header, 7, 4, 8)])
    plan.ask("workspace", main, "surface", is_now=[])
    plan.look("rename", main, 11, 22, "renamed", is_now=[])  # helper, static in two files
    plan.texts(once)
    plan.do("undo", main)
    plan.texts(old)
    parameter(plan)
    plan.look("rename", shape, 5, 4, "surface", is_now=[])  # from its definition
    plan.texts(new)


class Local(NamedTuple):
    """A name in items.c or items.h that means something in its function or its macro alone.

    A place is a line, two columns in UTF-16 units and the kind of a highlight.
    """

    file: str
    at: tuple[int, int]  # where the questions are asked, inside of the last use
    declared: list[tuple]  # the last one is its definition
    used: list[tuple]
    refused: dict[str, str]  # new names, and how the reason ends
    edits: dict[str, str] = {}  # what a rename makes of parts of the text; none: "next" is refused
    new: str = "next"  # the name of a member

    def holds(self, place: tuple) -> bool:
        return place[0] == self.at[0] and place[1] <= self.at[1] <= place[2]


MACRO_PARAMETERS = [
    # count of ADD. A member, a variable, parameters and a label have this name, too
    Local(
        ITEMS_H,
        (10, 21),
        [(8, 12, 17, TEXT)],
        [(9, 53, 58, READ), (10, 10, 15, WRITE), (10, 19, 24, READ)],
        {"kept": IS_USED, "ADD": IS_USED, "count": IS_USED, "SIDES": IS_MACRO, "do": IS_BAD},
        {
            "ADD(count,": "ADD(next,",
            "kept = (total)->count;": "kept = (total)->next;",
            "(total)->count += count;": "(total)->next += next;",
        },
    ),
    # total of ADD, and a variable
    Local(
        ITEMS_H,
        (10, 4),
        [(8, 19, 24, TEXT)],
        [(9, 45, 50, READ), (10, 2, 7, READ)],
        {"add": IS_USED, "shape_t": IS_MACRO},
        {"ADD(count, total,": "ADD(count, next,", "(total)->": "(next)->"},
    ),
    # add of ADD, on the second line of the list, and a function
    Local(
        ITEMS_H,
        (10, 27),
        [(9, 12, 15, TEXT)],
        [(10, 26, 29, WRITE)],
        {"total": IS_USED, "PRINT": IS_MACRO},
        {"            add) do": "            next) do", "add = kept": "next = kept"},
    ),
    # it of TEXT, which makes a string
    Local(
        ITEMS_H,
        (11, 19),
        [(11, 13, 15, TEXT)],
        [(11, 18, 20, READ)],
        {"TEXT": IS_USED, "ADD": IS_MACRO},
        {"TEXT(it) #it": "TEXT(next) #next"},
    ),
    # count of PRINT, which hands it to TEXT
    Local(
        ITEMS_H,
        (12, 40),
        [(12, 14, 19, TEXT)],
        [(12, 30, 35, READ), (12, 38, 43, READ)],
        {"add": IS_USED, "next": "in the arguments of a macro: TEXT"},
    ),
    # n of MORE, which lost hands a parameter of this name
    Local(
        ITEMS_H,
        (13, 23),
        [(13, 13, 14, TEXT)],
        [(13, 22, 23, READ)],
        {"by": IS_USED, "shape_t": IS_MACRO},
        {"MORE(n, by) ((n)": "MORE(next, by) ((next)"},
    ),
]
FUNCTION_LOCALS = [
    # a label of add, which has a parameter and a variable of this name, too
    Local(
        ITEMS_C,
        (7, 10),
        [(11, 0, 5, TEXT)],
        [(7, 8, 13, TEXT)],
        {"total": IS_USED, "ADD": IS_MACRO},
        {"goto count;": "goto out;", "\ncount:": "\nout:"},
        "out",
    ),
    # the parameter of add
    Local(
        ITEMS_C,
        (10, 18),
        [(2, 29, 34, TEXT)],
        [(10, 16, 21, READ)],
        {"it": IS_USED, "next": IS_USED},
        {"int count)\n{\n\tfor": "int most)\n{\n\tfor", "total + count": "total + most"},
        "most",
    ),
    # the variable of a block in add, which hides it
    Local(
        ITEMS_C,
        (8, 13),
        [(5, 6, 11, WRITE)],
        [(6, 6, 11, READ), (8, 11, 16, READ)],
        {"it": IS_USED, "TEXT": IS_MACRO},
        {"int count = it": "int n = it", "(count < 0)": "(n < 0)", "+= count": "+= n"},
        "n",
    ),
    # a parameter of put, in the arguments of ADD
    Local(
        ITEMS_C,
        (17, 7),
        [(14, 29, 34, TEXT)],
        [(17, 5, 10, READ)],
        {"kept": "used in a macro: ADD", "next": "in the arguments of a macro: ADD"},
    ),
    # the parameters of least, in the old style, where the first one has no type
    Local(
        ITEMS_C,
        (20, 60),
        [(20, 10, 15, TEXT)],
        [(20, 42, 47, READ), (20, 57, 62, READ)],
        {"last": IS_USED, "goto": IS_BAD},
        {"least(first,": "least(next,", "first < last ? first": "next < last ? next"},
    ),
    Local(
        ITEMS_C,
        (20, 66),
        [(20, 17, 21, TEXT), (20, 27, 31, TEXT)],
        [(20, 50, 54, READ), (20, 65, 69, READ)],
        {"first": IS_USED, "least": IS_USED},
        {
            "(first, last) int last;": "(first, next) int next;",
            "< last ? first : last": "< next ? first : next",
        },
    ),
    # a parameter of lost; its new name is that of a parameter of MORE
    Local(
        ITEMS_C,
        (24, 14),
        [(21, 13, 14, TEXT)],
        [(24, 13, 14, READ)],
        {"missing": IS_USED, "MORE": IS_USED, "TEXT": IS_MACRO},
        {"lost(int n)": "lost(int by)", "MORE(n, 1)": "MORE(by, 1)"},
        "by",
    ),
]


def column_in_bytes(file: str, line: int, column: int) -> int:
    begin = TREE[file].split("\n")[line].encode("utf-16-le")[: 2 * column]
    return len(begin.decode("utf-16-le").encode())


def local(plan: Plan, editor: str, it: Local) -> None:
    """All that is asked about one local, by requests and by the editor's own commands."""
    file, at, marks = it.file, it.at, sorted(it.declared + it.used)
    definition, (word,) = it.declared[-1], filter(it.holds, marks)
    line, text = definition[0], TREE[file]
    for what in "definition", "declaration":
        plan.ask(what, file, *at, is_now=[(file, *definition[:3])])
    shown = text.split("\n")[line].lstrip()
    plan.ask("hover", file, *at, is_now=(f"{file}:{line + 1}\n{shown}", *word[:3]))
    plan.ask("uses", file, *at, is_now=[(file, *use[:3]) for use in it.used])
    plan.ask("marks", file, *at, is_now=marks)
    plan.ask("prepare", file, *at, is_now=word[:3])
    plan.ask("calls", file, *at, is_now=None)

    places = [(file, line, column_in_bytes(file, line, column)) for line, column, *_ in marks]
    begin = places[marks.index(definition)]
    edits = [(file, *mark[:3]) for mark in marks] if it.edits else it.refused["next"]
    for place, mark in zip(places, marks):
        before = [other for other in it.declared if other <= mark] or it.declared
        plan.ask("definition", *place, is_now=[(file, *before[-1][:3])])
        plan.ask("marks", *place, is_now=marks)
        plan.ask("rename", *place, is_now=edits)
    plan.jump(file, *at, [begin])
    plan.look("declare", file, *at, is_now=[begin])
    plan.look("list", file, *at, is_now=places)
    names = {TEXT: "LspReferenceText", READ: "LspReferenceRead", WRITE: "LspReferenceWrite"}
    lit = []
    for place, (_, first, end, kind) in zip(places, marks):
        told = (*place[1:], place[2] + end - first)
        lit.append((*told, names[kind]) if editor == "nvim" else told)
    plan.look("light", file, *at, is_now=lit)

    texts = {name: TREE[name] for name in (ITEMS_C, ITEMS_H)}
    for name, why in it.refused.items():
        plan.look("rename", file, *at, name, is_now=told_why(why))
    plan.texts(texts)
    if it.edits:
        new = text
        for old_part, new_part in it.edits.items():
            new = new.replace(old_part, new_part)
        plan.look("rename", file, *at, it.new, is_now=[])
        plan.texts({**texts, file: new})
        there = (file, line, definition[1], definition[1] + len(it.new))
        plan.ask("definition", *there[:3], is_now=[there])
        plan.do("undo", file)
        plan.texts(texts)
        plan.ask("marks", file, *at, is_now=marks)


def locals_of_macros(plan: Plan, editor: str) -> None:
    """Parameters of macros, and names beside them."""
    plan.do("open", ITEMS_C)
    plan.do("open", ITEMS_H)
    for it in MACRO_PARAMETERS:
        local(plan, editor, it)
    plan.ask("definition", ITEMS_H, 12, 22, is_now=[(ITEMS_C, 2, 4, 7)])  # add, which PRINT calls
    plan.ask("definition", ITEMS_H, 9, 43, is_now=[])  # kept
    plan.ask("definition", ITEMS_H, 3, 6, is_now=[(ITEMS_H, 3, 5, 10)])  # the member count
    # what is typed, with bytes beside a name that no rename takes
    odd = ["#define ODD(n) n\u00e9 + n", "#define LATE(n) ((n) + n\\", ")"]
    bit = "#define BIT(count) (1 << (count))"
    lines = TREE[ITEMS_H].splitlines()

    def text(last: str) -> str:
        return "\n".join([*lines[:14], *odd, last, *lines[14:]])

    plan.do("type", ITEMS_H, 14, [*odd, bit])
    odd_marks = [(14, 12, 13, TEXT), (14, 15, 16, READ), (14, 20, 21, READ)]
    plan.ask("marks", ITEMS_H, 14, 21, is_now=odd_marks)
    for place, number in ((14, 12), 15), ((15, 18), 16):
        plan.look(
            "rename", ITEMS_H, *place, "next", is_now=told_why(f"odd bytes: {ITEMS_H}:{number}")
        )
    plan.texts({ITEMS_H: text(bit)})
    plan.ask("marks", ITEMS_H, 17, 27, is_now=[(17, 12, 17, TEXT), (17, 26, 31, READ)])
    plan.look("rename", ITEMS_H, 17, 27, "next", is_now=[])
    plan.texts({ITEMS_H: text(bit.replace("count", "next"))})
    plan.do("undo", ITEMS_H)
    plan.texts({ITEMS_H: text(bit)})


def locals_of_functions(plan: Plan, editor: str) -> None:
    """Locals of functions that have the name of other things."""
    plan.do("open", ITEMS_H)
    plan.do("open", ITEMS_C)
    for it in FUNCTION_LOCALS:
        local(plan, editor, it)
    plan.ask("definition", ITEMS_C, 5, 19, is_now=[(ITEMS_H, 3, 5, 10)])  # the member count
    plan.ask("definition", ITEMS_C, 5, 15, is_now=[(ITEMS_C, 2, 21, 23)])  # it
    plan.ask("definition", ITEMS_C, 23, 8, is_now=[])  # a label that its function lacks
    plan.ask("prepare", ITEMS_C, 23, 8, is_now=None)
    plan.ask("rename", ITEMS_C, 23, 8, is_now="no such definition")
    plan.ask("marks", ITEMS_C, 23, 8, is_now=[(23, 6, 13, TEXT)])
    # the member count and the function add have no use among these
    plan.ask("uses", ITEMS_C, 5, 19, is_now=[(ITEMS_C, 5, 18, 23)])
    plan.ask("marks", ITEMS_C, 5, 19, is_now=[(5, 18, 23)])
    plan.ask("rename", ITEMS_C, 5, 19, is_now=f"type is not known: {ITEMS_C}:6")
    others = [(ITEMS_H, 7, 4, 7), (ITEMS_H, 12, 21, 24)]
    plan.ask("uses", ITEMS_C, 2, 5, is_now=others)
    plan.ask("marks", ITEMS_C, 2, 5, is_now=[(2, 4, 7)])
    plan.ask("rename", ITEMS_C, 2, 5, is_now=[(ITEMS_C, 2, 4, 7), *others])


def declarations(plan: Plan, has_prototypes: bool) -> None:
    """Declarations, which only --prototypes finds, and definitions from the same places."""
    main, shape, header, deep = "src/main.c", "src/shape.c", "src/shape.h", "lib/deep/list.h"
    for file in main, header, ITEMS_C, ITEMS_H:
        plan.do("open", file)
    for file, line, column, declared, defined in [
        (main, 11, 29, (header, 7, 4, 8), (shape, 5, 4, 8)),  # area
        (main, 11, 40, (deep, 1, 4, 8), ("lib/list.c", 1, 4, 8)),  # grow
        (header, 7, 5, (header, 7, 4, 8), (shape, 5, 4, 8)),  # area, at its prototype
        (ITEMS_H, 7, 5, (ITEMS_H, 7, 4, 7), (ITEMS_C, 2, 4, 7)),  # add, at its prototype
        (ITEMS_C, 2, 5, (ITEMS_H, 7, 4, 7), (ITEMS_C, 2, 4, 7)),  # add, at its definition
        (ITEMS_H, 12, 22, (ITEMS_H, 7, 4, 7), (ITEMS_C, 2, 4, 7)),  # add, in a macro
        (ITEMS_C, 8, 4, (ITEMS_H, 6, 11, 16), (ITEMS_C, 1, 4, 9)),  # total
        (ITEMS_H, 6, 12, (ITEMS_H, 6, 11, 16), (ITEMS_C, 1, 4, 9)),  # total, where it is declared
    ]:
        told = declared if has_prototypes else defined
        plan.ask("definition", file, line, column, is_now=[defined])
        plan.ask("declaration", file, line, column, is_now=[told])
        plan.look("declare", file, line, column, is_now=[told[:3]])
    # what has no declaration, and locals
    for file, line, column, place in [
        (main, 11, 22, (main, 4, 11, 17)),  # helper
        (main, 6, 13, (header, 2, 8, 13)),  # SIDES
        (ITEMS_C, 8, 13, (ITEMS_C, 5, 6, 11)),  # count, in a block
        (ITEMS_C, 10, 18, (ITEMS_C, 2, 29, 34)),  # count, a parameter
        (ITEMS_C, 7, 10, (ITEMS_C, 11, 0, 5)),  # count, a label
        (ITEMS_C, 5, 19, (ITEMS_H, 3, 5, 10)),  # count, a member
        (ITEMS_H, 10, 27, (ITEMS_H, 9, 12, 15)),  # add, a parameter of a macro
        (ITEMS_C, 0, 12, (ITEMS_H, 0, 0, 0)),  # "items.h"
    ]:
        plan.ask("declaration", file, line, column, is_now=[place])
        plan.look("declare", file, line, column, is_now=[place[:3]])
    plan.ask("declaration", ITEMS_H, 7, 32, is_now=[])  # count, a parameter of a prototype
    plan.look("declare", ITEMS_H, 7, 32, is_now=[])
    if has_prototypes:  # two of them: that of the header that the file includes, or its own
        here, there = (ITEMS_H, 8, 4, 8), (deep, 1, 4, 8)
        plan.do("type", ITEMS_H, 8, ["int grow(int n);"])
        plan.do("open", "lib/list.c")
        plan.ask("declaration", main, 11, 40, is_now=[there])
        plan.ask("declaration", ITEMS_H, 8, 5, is_now=[here])
        plan.ask("declaration", "lib/list.c", 1, 5, is_now=[there])
        plan.ask("declaration", deep, 1, 5, is_now=[there])
        plan.ask("definition", main, 11, 40, is_now=[("lib/list.c", 1, 4, 8)])


def hard_links(plan: Plan) -> None:
    """A rename where a hard link leads to a file that would be edited."""
    main, shape, hard = "src/main.c", "src/shape.c", "src/hard.c"
    plan.do("open", main)
    for file in main, shape, hard:  # the last two have one buffer
        plan.do("open", file)
        plan.look("rename", main, 11, 29, "surface", is_now=told_why("not open: src/hard.c"))
    plan.texts({main: TREE[main], shape: TREE[shape]})


def links(plan: Plan, editor: str) -> None:
    """A rename where a file is open by a link to it. nvim names it by the link, so the rename is
    refused. eglot may name it by the file: then it is renamed once."""
    main, link = "src/main.c", "src/link.c"
    texts = {main: TREE[main], link: TREE["src/shape.c"]}
    plan.do("open", main)
    plan.do("open", link)
    if editor == "nvim":
        why = "open under a second name: src/link.c"
        plan.look("rename", main, 11, 29, "surface", is_now=told_why(why))
        plan.texts(texts)
        return
    plan.look("rename", main, 11, 29, "surface", is_now=lambda told: len(told) < 2)
    for file, text in texts.items():
        either = [text.splitlines(), re.sub(r"\barea\b", "surface", text).splitlines()]
        plan.look("text", file, is_now=lambda told, either=either: told in either)


def branches(plan: Plan, editor: str) -> None:
    """git checks out another branch, and goes back."""
    main, shape, header = "src/main.c", "src/shape.c", "src/shape.h"

    # nvim does not tell that a file is gone
    both = ["lib/grow.c", "lib/list.c"] if editor == "nvim" else []

    def is_found(area: int, sides: int, *grow: str) -> None:
        plan.ask("definition", main, 11, 29, is_now=[(shape, area, 4, 8)])
        plan.ask("definition", main, 6, 12, is_now=[(header, sides, 8, 13)])
        there = [(file, 0 if "grow" in file else 1, 4, 8) for file in grow]
        plan.ask("definition", main, 11, 40, is_now=there)

    plan.do("open", main)
    plan.do("open", header)
    is_found(5, 2, "lib/list.c")
    plan.do("git", "checkout", "--quiet", "moved")
    if editor == "nvim":
        plan.jump(main, 11, 29, [(shape, 7, 4)])
        plan.do("drop", shape)
        is_found(7, 2, "lib/list.c")  # which is gone
        plan.do("open", "lib/grow.c")  # which is new
        plan.do("drop", "lib/grow.c")
    is_found(7, 2, *both or ["lib/grow.c"])
    plan.do("reread", header)
    is_found(7, 3, *both or ["lib/grow.c"])
    plan.ask("names", main, 11, 40, is_now=(True, []))
    plan.ask("names", main, 11, 42, is_now=(False, [("grow", FUNCTION_NAME)]))
    if editor == "emacs":
        plan.jump(main, 11, 40, [("lib/grow.c", 0, 4)])
        plan.do("drop", "lib/grow.c")
    plan.do("git", "checkout", "--quiet", "main")
    is_found(5, 3, *both or ["lib/list.c"])
    plan.do("drop", header)
    is_found(5, 2, *both or ["lib/list.c"])


# ---- what an editor was told


def path_of(uri: str, root: pathlib.Path) -> str:
    path = urllib.parse.unquote(uri.removeprefix("file://"))
    return path.removeprefix(f"{root}/")


def place_of(location: dict, root: pathlib.Path) -> tuple:
    begin = location["range"]["start"]
    return path_of(location["uri"], root), begin["line"], begin["character"]


def plain(method: str, told: object, root: pathlib.Path) -> object:
    """An answer in the form in which it is expected."""
    if method == "jump":
        return [(path_of(path, root), line, column) for path, line, column in [told]]
    if method in ("list", "declare", "calls"):
        places = [(path_of(it[0], root), *it[1:]) for it in told]
        return sorted(it[: 4 if method == "calls" else 3] for it in places)
    if method == "light":
        return list(map(tuple, told))
    if method == "walk":
        calls = []
        for name, item, ranges in told:
            place = place_of({**item, "range": item["selectionRange"]}, root)
            where = [(it["start"]["line"], *(it[at]["character"] for at in ENDS)) for it in ranges]
            calls.append((name, item["name"], *place, where))
        return calls
    if method == "complete":
        return tuple(told)
    if method in ("text", "rename") or not isinstance(told, (list, dict)):
        return told
    if "error" in told:
        return told["error"]["message"]
    if method.endswith(("definition", "declaration", "references")):
        return [(*place_of(it, root), it["range"]["end"]["character"]) for it in told]
    if method.endswith("hover"):
        begin, end = told["range"]["start"], told["range"]["end"]
        return told["contents"]["value"], begin["line"], begin["character"], end["character"]
    if method.endswith("prepareRename"):
        return told["start"]["line"], *(told[at]["character"] for at in ENDS)
    if method.endswith("CallHierarchy"):
        places = [place_of({**it, "range": it["selectionRange"]}, root) for it in told]
        return [(it["name"], it["kind"], *place) for it, place in zip(told, places)]
    if method.endswith("completion"):
        return bool(told["isIncomplete"]), [(it["label"], it["kind"]) for it in told["items"]]
    if method.endswith("rename"):
        edits = [({"uri": uri, **it}) for uri, some in told["changes"].items() for it in some]
        # the files of an object in nvim come in no order
        return sorted((*place_of(it, root), it["range"]["end"]["character"]) for it in edits)
    if method.endswith("foldingRange"):
        return [(it["startLine"], it["endLine"]) for it in told]
    if method.endswith("Highlight"):
        pairs = [(it["range"], [it["kind"]] if "kind" in it else []) for it in told]
        columns = [[it[at]["character"] for at in ENDS] for it, _ in pairs]
        places = zip(pairs, columns)
        return [(it["start"]["line"], *both, *kind) for (it, kind), both in places]
    if method.startswith("workspace"):
        return [(it["name"], it["kind"], *place_of(it["location"], root)) for it in told]
    begins = [(it, it["selectionRange"]["start"]) for it in told]
    return [(it["name"], it["kind"], at["line"], at["character"]) for it, at in begins]


def marked(mark: str) -> list[str]:
    """The processes that have this mark in their environment."""
    found = []
    for place in pathlib.Path("/proc").glob("[0-9]*"):
        try:
            if mark.encode() in (place / "environ").read_bytes():
                words = (place / "cmdline").read_bytes().replace(b"\0", b" ").decode()
                found += [f"{place.name} {words}"] if words else []
        except OSError:
            pass
    return found


class Editor:
    """Runs plans in an editor."""

    def __init__(self, name: str, cbrowse: str, room: pathlib.Path):
        self.name, self.room = name, room
        self.mark = f"cbrowse-mark-{uuid.uuid4()}"
        for folder in "home", "temporary":
            (room / folder).mkdir()
        self.env = {
            **os.environ,
            "PATH": f"{TOP / 'editors'}:{os.environ['PATH']}",
            "CBROWSE": cbrowse,
            "HOME": str(room / "home"),
            "TMPDIR": str(room / "temporary"),
            "LANG": "C.UTF-8",
            "LC_ALL": "C.UTF-8",
            "TERM": "vt100",
            "STEPS": str(room / "steps"),
            "FOUND": str(room / "found"),
            "MARK": self.mark,
        }

    def words(self) -> list[str]:
        if self.name == "nvim":
            return ["nvim", "--headless", "-u", "NONE", "-i", "NONE", "-n", "-c", "luafile"]
        return ["emacs", "-nw", "-q", "--no-splash", "-l"]

    def run_in_terminal(self, words: list[str], folder: pathlib.Path) -> None:
        """emacs sends what is typed only while it waits for keys, so it gets a terminal."""
        pid, master = pty.fork()
        if pid == 0:
            os.chdir(folder)
            os.execvpe(words[0], words, {**self.env, "PWD": str(folder)})
        end = time.monotonic() + PATIENCE
        while time.monotonic() < end:
            try:
                if select.select([master], [], [], 0.1)[0] and not os.read(master, 65536):
                    break
            except OSError:  # the other side is gone
                break
        else:
            os.kill(pid, signal.SIGKILL)
        os.waitpid(pid, 0)
        os.close(master)

    def run(self, plan: Plan) -> list:
        """Runs it in the folder of the plan, with the name that a shell gives that folder."""
        script = self.room / ("script.lua" if self.name == "nvim" else "script.el")
        script.write_text(NVIM_SCRIPT if self.name == "nvim" else EMACS_SCRIPT)
        given = {
            "root": str(plan.root),
            "command": ["cbrowse-lsp", *plan.words],
            "again": AGAIN,
            "steps": plan.steps,
            "end": plan.end,
        }
        (self.room / "steps").write_text(json.dumps(given))
        (self.room / "found").unlink(missing_ok=True)
        words = self.words()
        if self.name == "nvim":
            words[-1] += f" {script}"
            subprocess.run(
                words,
                cwd=plan.root,
                env={**self.env, "PWD": str(plan.root)},
                timeout=PATIENCE,
                stdin=subprocess.DEVNULL,
                capture_output=True,
            )
        else:
            self.run_in_terminal([*words, str(script)], plan.root)
        found = self.room / "found"
        return json.loads(found.read_text()) if found.exists() else []

    def check(self, part: str, plan: Plan) -> None:
        """Runs a plan, compares each answer, and looks for what is left behind."""
        what = f"{self.name}, {part}"
        found = self.run(plan)
        report.equal(f"{what}: steps done", len(plan.steps), len(found))
        root = plan.root.resolve()
        for step, expected, told in zip(plan.steps, plan.expected, found):
            if expected is None:
                if told[0] is not None:
                    report.check(f"{what}: {step[0]} {step[1]}", False, told[0])
                continue
            method = step[2] if step[0] == "ask" else step[0]
            is_text = isinstance(told[0], str)
            answer = told[0] if is_text else plain(method, told[0], root)
            text, value = expected
            if callable(value):
                report.check(f"{what}: {text}", not is_text and value(answer), answer)
            else:
                report.equal(f"{what}: {text}", value, answer)
            if step[0] == "ask" and not is_text:
                timed = times.setdefault((self.name, part, method), [])
                timed.extend((it, text) for it in told[1])
        left = marked(self.mark)
        end = time.monotonic() + 5
        while left and time.monotonic() < end:
            time.sleep(0.05)
            left = marked(self.mark)
        report.equal(f"{what}: processes left", [], left)
        report.equal(f"{what}: temporary files left", [], left_over(self.room / "temporary"))


# ---- the parts


def make_tree(root: pathlib.Path) -> None:
    def write(files):
        for name, text in files.items():
            (root / name).parent.mkdir(parents=True, exist_ok=True)
            (root / name).write_text(text)

    def git(*words):
        settings = ["-c", "user.name=a", "-c", "user.email=a@b.c", "-c", "init.defaultBranch=main"]
        subprocess.run(["git", *settings, *words], cwd=root, check=True, capture_output=True)

    write(TREE)
    (root / "src/link.c").symlink_to("shape.c")
    git("init")
    git("add", "--all")
    git("commit", "-m", "A tree")
    git("checkout", "-b", "moved")
    write(BRANCH)
    git("rm", "lib/list.c")
    git("add", "--all")
    git("commit", "-m", "Another one")
    git("checkout", "main")
    write(NEW)


def by_hand(editor: Editor) -> None:
    """All parts over the small tree."""
    root = editor.room / FOLDERS[editor.name]
    root.mkdir()
    make_tree(root)
    plan = Plan(root)
    calls(plan, editor.name)
    editor.check("calls", plan)
    plan = Plan(root)
    renames(plan)
    editor.check("rename", plan)
    for part, steps in ("macros", locals_of_macros), ("locals", locals_of_functions):
        plan = Plan(root)
        steps(plan, editor.name)
        editor.check(part, plan)
    for part, words in ("declared", ("--prototypes",)), ("without", ()):
        plan = Plan(root, words)
        declarations(plan, bool(words))
        editor.check(f"declarations, {part}", plan)
    os.link(root / "src/shape.c", root / "src/hard.c")
    plan = Plan(root)
    hard_links(plan)
    editor.check("names, hard link", plan)
    (root / "src/hard.c").unlink()
    plan = Plan(root)
    links(plan, editor.name)
    editor.check("names, link", plan)
    plan = Plan(root)
    branches(plan, editor.name)
    editor.check("branch", plan)
    for name, text in TREE.items():
        what = f"{editor.name}, branch: {name} on disk is as it was"
        report.equal(what, text, (root / name).read_text())
    plan = Plan(root)
    questions(plan)
    edits(plan)
    editor.check("tree", plan)
    saved = (root / "src/shape.c").read_text()
    lines = TREE["src/shape.c"].splitlines(keepends=True)
    typed = ["int extra(int n)\n", "{\n", "\treturn n;\n", "}\n", "\n"]
    what = f"{editor.name}, tree: the file on disk is the one that was saved"
    report.equal(what, "".join([*lines[:5], *typed, *lines[5:]]), saved)
    for part, words in ("wide", ()), ("standard", ("--standard",)):
        plan = Plan(root, words, "quit")
        profile(plan, part == "wide")
        editor.check(part, plan)
    (editor.room / "way").symlink_to(root)
    plan = Plan(editor.room / "way", (), "quit")
    plan.do("open", "src/main.c")
    plan.do("open", "src/shape.c")
    plan.ask("definition", "src/main.c", 11, 29, is_now=[("src/shape.c", 10, 4, 8)])
    plan.do("type", "src/shape.c", 0, ["/* */"])
    plan.ask("definition", "src/main.c", 11, 29, is_now=[("src/shape.c", 11, 4, 8)])
    editor.check("link", plan)


def sure(text: str) -> list[tuple[str, int, int]]:
    """Names of functions that are defined on a line of their own before a line `{`."""
    lines = text.split("\n")
    found = []
    for number in range(1, len(lines) - 1):
        begin = re.fullmatch(r"((?:[a-z]\w* )*[a-z]\w* \**)([a-z]\w*)\(([\w *,]*)\)", lines[number])
        is_after = re.fullmatch(r"|\}|.*\*/", lines[number - 1])
        if begin and is_after and lines[number + 1] == "{" and begin[2] not in RESERVED:
            if not begin[1].startswith(("else ", "return ")):
                found.append((begin[2], number, len(begin[1])))
    return found


def on_sources(editor: Editor, folder: pathlib.Path, number: int) -> None:
    root = editor.room / "sources"
    sizes = c_files(folder, form="[!-,.-~][!-~]*", most=4096)
    copy(folder, sizes, root)
    subprocess.run(["git", "init", "--quiet"], cwd=root, check=True)
    texts = {}
    for name in sizes:
        try:
            texts[name] = (root / name).read_bytes().decode()
        except UnicodeDecodeError:
            continue
    plain_ones = {name: sure(text) for name, text in texts.items() if "\r" not in text}
    names = spread((name for name, it in plain_ones.items() if it), number)
    print(f"{editor.name}, sources: {len(sizes)} files, of which {len(names)} are opened")
    plan = Plan(root)

    def holds(word):
        def is_right(told):
            return bool(told) and all(named(root, place) == word for place in told)

        return is_right

    for name in names:
        functions = spread(plain_ones[name], 4)
        plan.do("open", name)
        begins = {(word, FUNCTION, line, column) for word, line, column in functions}
        plan.ask("symbols", name, is_now=lambda told, all=begins: all <= set(map(tuple, told)))
        for word, line, column in functions:
            here = (name, line, column, column + len(word))

            def is_there(told, here=here, word=word):
                return holds(word)(told) and here in map(tuple, told)

            plan.ask("definition", name, line, column, is_now=is_there)
            plan.ask("hover", name, line, column, is_now=lambda told: bool(told))
            is_named = lambda told, word=word: bool(told) and told[0][0] == word  # noqa: E731
            plan.ask("workspace", name, word, is_now=is_named)
    first, last = names[0], names[-1]
    for file, text in (first, "int cbrowse_is_here(void) { return 0; }"), (last, "CALL"):
        text = text.replace("CALL", "int cbrowse_asks(void) { return cbrowse_is_here(); }")
        plan.do("type", file, 0, [text])
    if first != last:
        plan.ask("definition", last, 0, 36, is_now=[(first, 0, 4, 19)])
        plan.do("drop", first)
        plan.ask("definition", last, 0, 36, is_now=[])
    editor.check("sources", plan)


def named(root: pathlib.Path, place: tuple) -> str:
    """The text at a place on disk; columns are UTF-16 units."""
    name, line, begin, end = place
    text = (root / name).read_bytes().split(b"\n")[line].decode("utf-8", "replace")
    return text.encode("utf-16-le")[2 * begin : 2 * end].decode("utf-16-le", "replace")


def is_there(name: str) -> bool:
    if not shutil.which(name):
        return False
    if name == "nvim":
        return True
    loads = "(progn (require 'eglot) (princ 'loaded))"
    done = subprocess.run([name, "--batch", "--eval", loads], capture_output=True)
    return b"loaded" in done.stdout


def main() -> int:
    parser = options(__doc__)
    parser.add_argument(
        "--sources", type=pathlib.Path, metavar="FOLDER", help="a folder of C files"
    )
    parser.add_argument("--files", type=int, default=12, help="how many of them are opened")
    parser.add_argument("--editor", choices=["nvim", "emacs"], help="this one alone")
    words = words_given(parser)
    for name in [words.editor] if words.editor else ["nvim", "emacs"]:
        if not is_there(name):
            print(f"{name}{' with eglot' if name == 'emacs' else ''}: not installed, passed over")
            continue
        said = subprocess.run([name, "--version"], capture_output=True, text=True)
        print(said.stdout.splitlines()[0])
        with tempfile.TemporaryDirectory() as place:
            editor = Editor(name, words.cbrowse, pathlib.Path(place).resolve())
            by_hand(editor)
            if words.sources:
                on_sources(editor, words.sources.resolve(), words.files)
    for (name, part, method), timed in times.items():
        half, (worst, where) = statistics.median(it for it, _ in timed), max(timed)
        print(f"{name}, {part}, {method}: {half:.2f} ms in the middle of {len(timed)},", end=" ")
        print(f"worst {worst:.2f} ms ({where})")
    return report.status()


if __name__ == "__main__":
    sys.exit(main())
