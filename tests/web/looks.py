"""Whether a page can be used without a mouse and in the dark."""
from web_kit import see


def see_names(page):
    """Whether what can be used has a name for screen readers."""
    fields = page.value("[...document.querySelectorAll('input, select, textarea')]"
                        ".filter(it => !it.labels.length).length")
    see("fields without a label", fields, 0)
    left = page.value("[...document.querySelectorAll('button, canvas, [role]')].filter(it => "
                      "!(it.textContent.trim() || it.getAttribute('aria-label') || "
                      "it.getAttribute('role') === 'status' || it.hidden || it.labels?.length))"
                      ".map(it => it.outerHTML)")
    see("parts without a name", left, [])


def see_themes(page):
    """Whether the page is light or dark as it is asked to be."""
    back = "getComputedStyle(document.body).backgroundColor"
    for scheme, wanted in (("dark", "rgb(20, 23, 27)"), ("light", "rgb(255, 255, 255)")):
        page.driven.send("Emulation.setEmulatedMedia",
                         features=[{"name": "prefers-color-scheme", "value": scheme}])
        see(f"the background in {scheme}", page.value(back), wanted)
