// SPDX-License-Identifier: MIT OR GPL-2.0-only
/*
 * A device at the other end of a serial port, as a device tree describes it below the port. It
 * sends back what comes.
 */
#include <linux/mod_devicetable.h>
#include <linux/module.h>
#include <linux/serdev.h>

static int receive(struct serdev_device *device, const unsigned char *bytes, size_t len)
{
	return serdev_device_write_buf(device, bytes, len);
}

static const struct serdev_device_ops operations = {
	.receive_buf = receive,
	.write_wakeup = serdev_device_write_wakeup,
};

static int probe(struct serdev_device *device)
{
	int error;

	serdev_device_set_client_ops(device, &operations);
	error = devm_serdev_device_open(&device->dev, device);
	if (error)
		return error;
	serdev_device_set_baudrate(device, 115200);
	serdev_device_set_flow_control(device, false);
	return 0;
}

static const struct of_device_id devices[] = {
	{ .compatible = "geesetrunk,echo" },
	{ }
};
MODULE_DEVICE_TABLE(of, devices);

static struct serdev_device_driver echo_driver = {
	.probe = probe,
	.driver = { .name = "echo", .of_match_table = devices },
};
module_serdev_device_driver(echo_driver);

MODULE_LICENSE("Dual MIT/GPL");
MODULE_DESCRIPTION("a device below a serial port, for the tests of u16550_tty");
