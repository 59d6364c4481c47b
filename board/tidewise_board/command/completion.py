"""`tw completion`: a shell's completion of the words of `tw`, as click writes it."""
from __future__ import annotations

import click
from click.shell_completion import get_completion_class

SHELLS = ["bash", "zsh", "fish"]


@click.command(name="completion")
@click.argument("shell", type=click.Choice(SHELLS))
@click.pass_context
def command(ctx: click.Context, shell: str) -> int:
    """Prints what completes the words of `tw` in a SHELL.

    \b
    Example: tw completion bash > ~/.local/share/bash-completion/completions/tw
    """
    made = get_completion_class(shell)
    if made is None:
        raise click.UsageError(f"{shell} is no shell that is known")
    click.echo(made(ctx.find_root().command, {}, "tw", "_TW_COMPLETE").source())
    return 0
