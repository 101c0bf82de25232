"""A button of KiCad's board editor: has boardnet judge the open board."""
try:
    from .button import Button
except ImportError:
    pass  # outside the board editor, as in a test, there is nothing to put a button on
else:
    Button().register()
