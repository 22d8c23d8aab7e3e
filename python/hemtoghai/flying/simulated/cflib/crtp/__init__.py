"""Drivers by the form of a URI."""
from typing import Any, List, Optional

from .crtpstack import CRTPPacket
from .radiodriver import RadioDriver, WrongUriType

CLASSES: List[Any] = []


def init_drivers(enable_debug_driver: bool = False, enable_serial_driver: bool = False) -> None:
    CLASSES.append(RadioDriver)


def get_link_driver(uri: str, radio_link_statistics_callback: Any = None,
                    link_error_callback: Any = None) -> Optional[RadioDriver]:
    for driver_class in CLASSES:
        try:
            instance: RadioDriver = driver_class()
            instance.connect(uri, radio_link_statistics_callback, link_error_callback)
            return instance
        except WrongUriType:
            continue
    return None
