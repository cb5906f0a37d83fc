"""Rules of Bazel for .imp files: each file is an action of its own, so only what changed is checked, here or remotely.

    load("//:imp.bzl", "imp_checked", "imp_verified")

    imp_checked(name = "checked", srcs = glob(["src/*.imp"]))
    imp_verified(name = "verified", srcs = glob(["src/*.imp"]))

`imp_checked` builds x.checked where daig-check finds nothing in x.imp. `imp_verified` builds x.cert, what was found at
the loops of x.imp, and x.verified where x.cert holds of it. The commands are those on the PATH of where an action runs,
or the paths that `daig_check` and `daig` name there.
"""

_CHECK = """
"$1" --quiet --format brief "${@:4}" "$2" >&2 && : >"$3"
"""

_CERT = """
"$1" cert --domain "$2" "${@:5}" "$3" >"$4" || exit 1
if head -n 1 "$4" | grep -q '"over":'; then
    echo "$3: no certificate: $(head -c 500 "$4")" >&2
    exit 1
fi
"""

_VERIFY = """
"$1" verify --domain "$2" "$3" "$4" >"$5"
grep -qxF '{"verify":"yes"}' "$5" || { echo "$4 does not hold of $3: $(head -c 500 "$5")" >&2; exit 1; }
"""

def _run(ctx, what, command, inputs, output, words):
    """Declares an action of the shell over its own files."""
    ctx.actions.run_shell(
        command = command,
        arguments = words,
        inputs = inputs,
        outputs = [output],
        mnemonic = "Imp" + what,
        progress_message = "daig: %s of %s" % (what.lower(), inputs[0].short_path),
        use_default_shell_env = True,
    )

def _made(ctx, source, ending):
    """A file beside a source, with another ending."""
    return ctx.actions.declare_file(source.basename[:-len(".imp")] + ending, sibling = source)

def _checked(ctx):
    made = []
    for source in ctx.files.srcs:
        checked = _made(ctx, source, ".checked")
        words = [ctx.attr.daig_check, source.path, checked.path] + ctx.attr.flags
        _run(ctx, "Check", _CHECK, [source] + ctx.files.config, checked, words)
        made.append(checked)
    return [DefaultInfo(files = depset(made))]

def _verified(ctx):
    made = []
    for source in ctx.files.srcs:
        cert, verified = _made(ctx, source, ".cert"), _made(ctx, source, ".verified")
        words = [ctx.attr.daig, ctx.attr.domain, source.path]
        _run(ctx, "Cert", _CERT, [source], cert, words + [cert.path] + ctx.attr.flags)
        _run(ctx, "Verify", _VERIFY, [source, cert], verified, words + [cert.path, verified.path])
        made += [cert, verified]
    return [DefaultInfo(files = depset(made))]

imp_checked = rule(
    implementation = _checked,
    doc = "Builds x.checked for each x.imp in which daig-check finds nothing.",
    attrs = {
        "srcs": attr.label_list(allow_files = [".imp"], mandatory = True, doc = "The files."),
        "config": attr.label_list(allow_files = ["daig.toml"], doc = "The configurations that count for them."),
        "flags": attr.string_list(doc = "More words for daig-check."),
        "daig_check": attr.string(default = "daig-check", doc = "The command, where the actions run."),
    },
)

imp_verified = rule(
    implementation = _verified,
    doc = "Builds x.cert and x.verified for each x.imp; x.verified says that the certificate holds, not that checks pass.",
    attrs = {
        "srcs": attr.label_list(allow_files = [".imp"], mandatory = True, doc = "The files."),
        "domain": attr.string(default = "octagon", values = ["interval", "octagon", "listseg"]),
        "flags": attr.string_list(doc = "More words for daig cert, such as --budget 1000."),
        "daig": attr.string(default = "daig", doc = "The program, where the actions run."),
    },
)
