"""Rows: a daemon is given a repository that it can't serve, and says so before it looks for a broker."""
import os
import subprocess

from process_rows.checks import row, same
from process_rows.repositories import SURROUNDINGS, git


def is_refused(room, fault, said, *words, env=None):
    """Shows that a daemon with these words ends by a fault, and says this last."""
    it = room.run("daemon", "--mount", "broker.sock", "takeover.sock", *words, env=env or SURROUNDINGS)
    same(it.ending(), (f"fault: {fault}", 1))
    same(it.said().splitlines()[-1:], [f"edend: {said}"])


def repository_of_one(room, *options):
    """Makes a repository with one commit of one file, and returns its path."""
    path = f"{room.path}/repository"
    os.mkdir(path)
    git(path, "init", "-q", *options)
    with open(f"{path}/file", "w") as file:
        file.write("some bytes\n")
    git(path, "add", "file")
    git(path, "commit", "-q", "-m", "one")
    return path


@row
def a_folder_without_a_repository_is_told(room):
    """Git finds no repository in a folder, or in the one above it: what git says is said too."""
    os.mkdir(f"{room.path}/plain")
    is_refused(room, "no repository", "plain: git finds no repository that it may read", "--git", "plain")


@row
def an_environment_names_no_other_repository(room):
    """A daemon that a hook of git starts has GIT_DIR and the like: they name no repository of its own."""
    path = repository_of_one(room)
    os.mkdir(f"{room.path}/plain")
    env = SURROUNDINGS | {"GIT_DIR": f"{path}/.git", "GIT_WORK_TREE": path, "GIT_OBJECT_DIRECTORY": f"{path}/.git/objects"}
    is_refused(room, "no repository", "plain: git finds no repository that it may read", "--git", "plain", env=env)
    is_refused(room, "no broker", "broker.sock: No such file or directory (os error 2)", "--git", path, env=env)


@row
def a_repository_of_another_user_is_told(room):
    """Git reads no repository of another user, and says what to do: that is said too."""
    if os.geteuid() != 0:
        return
    path = repository_of_one(room)
    for folder, _, files in os.walk(path):
        for it in [folder, *(f"{folder}/{name}" for name in files)]:
            os.chown(it, 65534, 65534)
    it = room.run("daemon", "--mount", "broker.sock", "takeover.sock", "--git", path, env=SURROUNDINGS)
    same(it.ending(), ("fault: no repository", 1))
    same("git config --global --add safe.directory" in it.said(), True)


@row
def a_commit_that_is_not_there_is_told(room):
    """A word names no commit: no name of anything, a file's or a folder's object, what begins with a dash, or nothing."""
    path = repository_of_one(room)
    for word in ("nosuch", "HEAD:file", "HEAD^", "-all", "--all", "0" * 40, ""):
        words = ("--git", path, "--", word) if word.startswith("-") else ("--git", path, word)
        is_refused(room, "no commit", f"{word}: the repository has no such commit", *words)


@row
def a_repository_without_a_commit_is_told(room):
    """Nothing was committed yet, so there is no HEAD."""
    path = f"{room.path}/repository"
    os.mkdir(path)
    git(path, "init", "-q")
    is_refused(room, "no commit", "HEAD: the repository has no such commit", "--git", path)


@row
def a_repository_by_sha256_is_told(room):
    """The objects of a repository are named by SHA-256."""
    path = repository_of_one(room, "--object-format=sha256")
    said = f"{path}: only a repository whose objects are named by SHA-1 is served"
    is_refused(room, "objects by SHA-256", said, "--git", path)


@row
def a_system_without_git_is_told(room):
    """Git is not among the system's programs."""
    path = repository_of_one(room)
    said = "git: No such file or directory (os error 2)"
    is_refused(room, "no git", said, "--git", path, env=SURROUNDINGS | {"PATH": f"{room.path}/none"})


@row
def a_tree_that_is_damaged_is_told(room):
    """Git can't list the files of a commit, since a tree is gone."""
    path = repository_of_one(room)
    tree = git(path, "rev-parse", "HEAD^{tree}", stdout=subprocess.PIPE).decode().strip()
    os.unlink(f"{path}/.git/objects/{tree[:2]}/{tree[2:]}")
    is_refused(room, "no commit", "HEAD: git cannot list its files", "--git", path)


@row
def repositories_of_odd_paths_are_read(room):
    """A repository's path may begin with a dash, be a relative one, a bare repository's or the folder `.git` itself: a daemon
    gets as far as the broker."""
    path = repository_of_one(room)
    os.rename(path, f"{room.path}/-r")
    git(room.path, "clone", "-q", "--bare", "./-r", "bare")
    for words in (("--git=-r",), ("--git", "bare"), ("--git", "./-r/.git"), ("--git", f"{room.path}/-r")):
        is_refused(room, "no broker", "broker.sock: No such file or directory (os error 2)", *words)
