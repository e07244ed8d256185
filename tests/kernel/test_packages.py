"""The folder of unpacked kernels and of the emulator, which runs as whoever calls it."""
import os

import pytest

from kernel import packages
from kernel.faults import KernelFault


@pytest.mark.parametrize("mode", [0o775, 0o757], ids=["a group", "all"])
@pytest.mark.parametrize("name", ["kernels", "", ".."])
def test_no_emulator_that_others_may_change(tmp_path, monkeypatch, name, mode):
    """Neither the folder nor one above may be written by others; a sticky one above it may."""
    kernels = tmp_path / "above/cache/kernels"
    kernels.mkdir(parents=True, mode=0o755)
    monkeypatch.setenv("ARBITER_KERNELS", str(kernels))
    assert packages.cache_folder() == kernels
    place = kernels.parent.joinpath(name).resolve()
    place.chmod(mode)
    with pytest.raises(KernelFault, match="^.*: other users may change this folder$"):
        packages.cache_folder()
    if place != kernels:
        place.chmod(mode | 0o1000)
        assert packages.cache_folder() == kernels
    if os.geteuid() == 0:
        place.chmod(0o755)
        os.chown(place, 65534, 65534)
        with pytest.raises(KernelFault, match="other users may change"):
            packages.cache_folder()


@pytest.mark.parametrize("name, places", [
    ("6.1", ("boot/config-6.1.0-1-cloud-amd64", "boot/vmlinuz-6.1.0-1-cloud-amd64")),
    ("7", ("usr/lib/modules/7.3.4+deb13-cloud-amd64/config",
           "usr/lib/modules/7.3.4+deb13-cloud-amd64/vmlinuz"))])
def test_an_unpacked_kernel(tmp_path, monkeypatch, name, places):
    """The image and the ticks of a kernel in one package, and of one in two. The newest kernel
    that is unpacked is used without a download."""
    monkeypatch.setenv("ARBITER_KERNELS", str(tmp_path / "kernels"))
    release = "7.3.4+deb13-cloud-amd64" if name == "7" else "6.1.0-1-cloud-amd64"
    folder = tmp_path / "kernels" / f"linux-image-{release}"
    for place, text in zip(places, ("CONFIG_NO=y\nCONFIG_HZ=250\n", "image")):
        (folder / place).parent.mkdir(parents=True, exist_ok=True)
        (folder / place).write_text(text)
    found = packages.kernel(name) if name == "7" else packages.in_folder(name, folder)
    assert found == packages.Kernel(name, release, folder / places[1], 250)


def test_an_unknown_kernel():
    """Its fault names those that are known."""
    with pytest.raises(KernelFault, match="^kernel 5: one of 6.1, 6.12, 7$"):
        packages.kernel("5")
